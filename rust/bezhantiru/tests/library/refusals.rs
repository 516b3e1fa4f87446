//! Document 01, "Refused, by place": every number that reaches a caller, at every limit and one
//! beyond, and the order.

use bezhantiru::boundary::{self, Bound, SlotRow};
use bezhantiru::{NO_BUFFER, NO_DELAY, Refusal, Regulator, envelope};

use crate::judged::{BUFFERS, DELAYS, both, first};
use crate::judged_tables::judged_tables;
use crate::lent::refused;
use crate::twin;
use crate::whole_trace::run;

const TABLE: [u32; 3] = [0, 2, 3];

fn number<T>(outcome: Result<T, Refusal>) -> u32 {
    outcome.err().map_or(0, Refusal::number)
}

fn fresh() -> Regulator {
    Regulator::set_up(&TABLE, 1, 9).expect("an accepted set-up")
}

#[test]
fn tables_at_set_up_question_and_run() {
    for (table, wanted) in judged_tables() {
        assert_eq!(number(Regulator::set_up(&table, 1, 9)), wanted, "{table:?}");
        assert_eq!(number(envelope(&table, 0)), wanted, "{table:?}");
        let outcome = run(&table, (1, 9), &[5], [1; 3]).outcome;
        assert_eq!(number(outcome), wanted, "{table:?}");
        if wanted != 0 {
            assert_eq!(number(Regulator::set_up(&table, 65, u32::MAX - 1)), wanted);
            assert_eq!(number(envelope(&table, u32::MAX)), wanted);
        }
    }
}

#[test]
fn windows() {
    for (window, wanted) in [(0, 0), (4_160, 0), (4_161, 5), (u32::MAX, 5)] {
        assert_eq!(number(envelope(&TABLE, window)), wanted, "{window}");
    }
}

#[test]
fn delays_and_buffers() {
    for (delay, by_delay) in DELAYS {
        for (buffer, by_buffer) in BUFFERS {
            let wanted = first([by_delay, by_buffer, both(delay, buffer)]);
            let found = number(Regulator::set_up(&TABLE, delay, buffer));
            assert_eq!(found, wanted, "delay {delay}, buffer {buffer}");
            let outcome = run(&TABLE, (delay, buffer), &[5], [1; 3]).outcome;
            assert_eq!(number(outcome), wanted, "delay {delay}, buffer {buffer}");
        }
    }
}

#[test]
fn a_refused_slot_leaves_the_regulator() {
    let mut live = fresh();
    live.slot(5).expect("an accepted slot");
    let before = live.clone();
    for arrivals in [1_000_001, 1 << 32, (1 << 32) + 5, 1 << 63, u64::MAX] {
        assert_eq!(live.slot(arrivals), Err(Refusal::TooManyArrivals));
        assert_eq!(live, before);
    }
    let counts = live.slot(1_000_000).expect("an accepted slot");
    assert_eq!((counts.admitted, counts.dropped), (2, 999_998));
}

#[test]
fn a_refused_slot_answers_no_counts() {
    let mut lent = fresh().state().clone();
    let wanted = SlotRow {
        number: 8,
        held_before: 0,
        admitted: 0,
        dropped: 0,
        departed: 0,
    };
    assert_eq!(twin::slot(&mut lent, 1_000_001), Ok(wanted));
}

#[test]
fn a_refused_question_answers_neither_packets_nor_a_piece() {
    for (table, by_table) in judged_tables() {
        for (window, by_window) in [(0, 0), (1, 0), (4_160, 0), (4_161, 5), (u32::MAX, 5)] {
            let number = first([by_table, by_window]);
            let found = boundary::envelope(&table, window);
            assert_eq!(found.number, number, "{table:?} at {window}");
            if number != 0 {
                let refused = Bound {
                    number,
                    piece: 0,
                    packets: 0,
                };
                assert_eq!(found, refused, "{table:?} at {window}");
            }
        }
    }
}

#[test]
fn the_regulator_of_a_refused_set_up_takes_no_slot() {
    for (table, delay, buffer, wanted) in [
        (&[][..], 1, 9, 1),
        (&[0, 3, 2], 1, 9, 4),
        (&TABLE, 65, 9, 6),
        (&TABLE, NO_DELAY, NO_BUFFER, 23),
    ] {
        let mut made = boundary::set_up(table, delay, buffer);
        assert_eq!(made.number, wanted);
        assert_eq!(made.regulator.slots, 1_000_000);
        let before = made.regulator.clone();
        for (arrivals, wanted) in [(0, 9), (1_000_001, 8)] {
            let row = twin::slot(&mut made.regulator, arrivals);
            assert_eq!(row.map(|row| row.number), Ok(wanted));
        }
        assert_eq!(made.regulator, before);
    }
}

/// The run's number where its set-up is accepted, and the lists as they were where it is refused.
fn check_run(arrivals: &[u32], lengths: [usize; 3], wanted: Option<Refusal>) {
    let found = run(&TABLE, (1, 9), arrivals, lengths);
    match wanted {
        Some(refusal) => assert!(found == refused(refusal, lengths), "{refusal}: {lengths:?}"),
        None => assert_eq!(found.outcome, Ok(())),
    }
}

#[test]
fn runs_in_their_order() {
    let long = Some(Refusal::TraceTooLong);
    let length = Some(Refusal::ListOfOtherLength);
    let arrivals = Some(Refusal::TooManyArrivals);
    check_run(&[0; 4_096], [4_096; 3], None);
    check_run(&[0; 4_097], [4_097; 3], long);
    check_run(&[1_000_001; 4_097], [0; 3], long);
    for lengths in [
        [1, 2, 2],
        [2, 3, 2],
        [2, 2, 0],
        [0; 3],
        [3; 3],
        [2, 2, 4_097],
    ] {
        check_run(&[5, 1_000_001], lengths, length);
        check_run(&[5, 0], lengths, length);
    }
    check_run(&[], [0, 1, 0], length);
    check_run(&[5, 1_000_001], [2; 3], arrivals);
    check_run(&[u32::MAX, 5], [2; 3], arrivals);
    check_run(&[5, 1_000_000], [2; 3], None);
}

#[test]
fn a_run_whose_set_up_is_refused_leaves_the_lists() {
    let arrivals = [1_000_001; 4_097];
    for (table, limits, refusal) in [
        (&[0][..], (65, 1_000_001), Refusal::WindowsOutOfRange),
        (&[1, 0], (65, 1_000_001), Refusal::FirstEntryNotZero),
        (&[0, 1_000_001], (65, 1_000_001), Refusal::EntryTooLarge),
        (&[0, 3, 2], (65, 1_000_001), Refusal::EntryFalls),
        (&TABLE, (65, 1_000_001), Refusal::DelayOutOfRange),
        (&TABLE, (64, 1_000_001), Refusal::BufferOutOfRange),
        (&[0, 3, 2], (NO_DELAY, NO_BUFFER), Refusal::EntryFalls),
        (&TABLE, (NO_DELAY, NO_BUFFER), Refusal::BothLimitsNone),
    ] {
        for lengths in [[0; 3], [4_097; 3], [4_097, 0, 5]] {
            let found = run(table, limits, &arrivals, lengths);
            assert!(found == refused(refusal, lengths), "{refusal}: {lengths:?}");
        }
    }
}
