//! Document 01, "Rows to check by hand": the rows of the regulator and of the program.

use reference::layout::{NO_BUFFER, NO_DELAY, StreamFile};
use reference::regulator::{Regulator, Row};
use reference::text::printed;
use reference::trace::{Lists, run};

const NO_DELAY_LIMIT: u64 = NO_DELAY as u64;

/// The lists of a run that is accepted, and the held totals of the live regulator beside it.
fn answers(table: &[u64], delay: u64, buffer: u64, arrivals: &[u64]) -> (Lists, Vec<u64>) {
    let slots = arrivals.len();
    let lists = run(table, delay, buffer, arrivals, [slots; 3]).expect("an accepted run");
    let mut live = Regulator::set_up(table, delay, buffer).expect("an accepted set-up");
    let slot = |&count| live.slot(count).expect("an accepted slot");
    let rows: Vec<Row> = arrivals.iter().map(slot).collect();
    let column = |field: fn(&Row) -> u64| rows.iter().map(field).collect::<Vec<u64>>();
    assert_eq!(column(|row| row.arrived), arrivals);
    assert_eq!(column(|row| row.admitted), lists.admitted);
    assert_eq!(column(|row| row.dropped), lists.dropped);
    assert_eq!(column(|row| row.departed), lists.departed);
    (lists, column(|row| row.held))
}

fn lists(admitted: &[u64], dropped: &[u64], departed: &[u64]) -> Lists {
    Lists {
        admitted: admitted.to_vec(),
        dropped: dropped.to_vec(),
        departed: departed.to_vec(),
    }
}

#[test]
fn delay_1_and_buffer_9() {
    let (found, held) = answers(&[0, 2, 3], 1, 9, &[5, 0, 4, 0]);
    assert_eq!(found, lists(&[3, 0, 3, 0], &[2, 0, 1, 0], &[2, 1, 2, 1]));
    assert_eq!(held, [1, 0, 1, 0]);
}

#[test]
fn delay_0_leaves_as_it_comes_and_buffer_0_admits_nothing() {
    let wanted = lists(&[2, 0, 2], &[3, 0, 2], &[2, 0, 2]);
    assert_eq!(answers(&[0, 2, 3], 0, 9, &[5, 0, 4]).0, wanted);
    let wanted = lists(&[0, 0, 0], &[5, 0, 4], &[0, 0, 0]);
    assert_eq!(answers(&[0, 2, 3], 1, 0, &[5, 0, 4]).0, wanted);
}

#[test]
fn an_envelope_of_zeros_fills_the_buffer() {
    let (found, held) = answers(&[0, 0], NO_DELAY_LIMIT, 5, &[3, 4]);
    assert_eq!(found, lists(&[3, 2], &[0, 2], &[0, 0]));
    assert_eq!(held, [3, 5]);
}

#[test]
fn an_empty_trace_is_accepted() {
    let (found, _) = answers(&[0, 2, 3], 1, 9, &[]);
    assert_eq!(found, lists(&[], &[], &[]));
}

fn six_packet_burst() -> StreamFile {
    StreamFile::of_arrivals(&[0, 4, 8, 12, 16, 17, 18], (NO_DELAY, 4), &[6; 4])
}

#[test]
fn the_program_prints_the_six_packet_burst() {
    let wanted = "slot arrived admitted dropped departed held\n\
                  1 6 4 2 4 0\n\
                  2 6 4 2 4 0\n\
                  3 6 4 2 4 0\n\
                  4 6 4 2 4 0\n\
                  total 24 16 8 16 0\n";
    assert_eq!(printed(&six_packet_burst().to_bytes()), wanted);
}

/// The row with both limits none, which only a file carries.
#[test]
fn the_program_prints_a_file_with_both_marks() {
    let file = StreamFile::of(&[0, 2, 3], (NO_DELAY, NO_BUFFER), 3, [(1, 5), (3, 4)]);
    let wanted = "slot arrived admitted dropped departed held\n\
                  1 5 5 0 2 3\n\
                  2 0 0 0 1 2\n\
                  3 4 4 0 2 4\n\
                  total 9 9 0 5 4\n";
    assert_eq!(printed(&file.to_bytes()), wanted);
}

#[test]
fn the_program_prints_an_empty_trace() {
    let mut file = six_packet_burst();
    file.header.slots = 0;
    file.header.bursts = 0;
    file.burst_slots.clear();
    file.burst_counts.clear();
    let wanted = "slot arrived admitted dropped departed held\ntotal 0 0 0 0 0\n";
    assert_eq!(printed(&file.to_bytes()), wanted);
}

#[test]
fn the_program_prints_a_refusal() {
    let bytes = six_packet_burst().to_bytes();
    assert_eq!(printed(&bytes[..19]), "refused 12\n");
    assert_eq!(printed(&bytes[..20]), "refused 13\n");
}
