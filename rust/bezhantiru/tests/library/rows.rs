//! Document 01, "Rows to check by hand", and those of document 02, 2.4, through the boundary.

use bezhantiru::{Bound, NO_BUFFER, NO_DELAY, Record, Refusal, Regulator, envelope};

use crate::lent::{Run, refused};
use crate::whole_trace::run;

fn closure(table: &[u32], last: u32) -> Vec<u64> {
    let at = |window| envelope(table, window).expect("an accepted question");
    (0..=last).map(|window| at(window).packets).collect()
}

/// The run fills these lists; the live regulator answers the same counts, and after each slot the
/// order form reads these held totals.
fn check(table: &[u32], limits: (u32, u32), arrivals: &[u32], lists: [&[u32]; 3], held: &[u64]) {
    let wanted = Run {
        outcome: Ok(()),
        lists: lists.map(<[u32]>::to_vec),
    };
    assert_eq!(run(table, limits, arrivals, [arrivals.len(); 3]), wanted);
    let [admitted, dropped, departed] = lists;
    let mut live = Regulator::set_up(table, limits.0, limits.1).expect("an accepted set-up");
    let mut held_before = 0;
    for (index, &count) in arrivals.iter().enumerate() {
        let wanted = Record {
            held_before,
            admitted: admitted[index].into(),
            dropped: dropped[index].into(),
            departed: departed[index].into(),
        };
        assert_eq!(live.slot(count.into()), Ok(wanted), "slot {}", index + 1);
        assert_eq!(wanted.form_fill(), held[index], "slot {}", index + 1);
        held_before = held[index];
    }
}

#[test]
fn closures() {
    assert_eq!(closure(&[0, 2, 5], 2), [0, 2, 4]);
    assert_eq!(closure(&[0, 0, 5], 2), [0, 0, 0]);
    assert_eq!(closure(&[0, 5, 6, 20], 3), [0, 5, 6, 11]);
    assert_eq!(closure(&[0, 2, 3], 4), [0, 2, 3, 5, 6]);
}

#[test]
fn the_last_window_that_is_answered() {
    let bound = |packets, piece| Ok(Bound { packets, piece });
    assert_eq!(envelope(&[0, 2, 3], 4_160), bound(6_240, 2));
    assert_eq!(envelope(&[0, 1_000_000], 4_160), bound(4_160_000_000, 1));
}

#[test]
fn first_pieces() {
    for (table, window, packets, piece) in [
        (&[0, 2, 3][..], 4, 6, 2),
        (&[0, 2, 5], 2, 4, 1),
        (&[0, 2, 3], 0, 0, 0),
        (&[0, 2, 3], 3, 5, 1),
        (&[0, 0, 0], 0, 0, 0),
        (&[0, 0, 0], 1, 0, 1),
        (&[0, 0, 0], 4_160, 0, 1),
        (&[0, 7, 7, 7], 4_160, 9_709, 2),
    ] {
        let found = envelope(table, window);
        assert_eq!(found, Ok(Bound { packets, piece }), "{table:?}, {window}");
    }
}

#[test]
fn delay_1_and_buffer_9() {
    let lists: [&[u32]; 3] = [&[3, 0, 3, 0], &[2, 0, 1, 0], &[2, 1, 2, 1]];
    check(&[0, 2, 3], (1, 9), &[5, 0, 4, 0], lists, &[1, 0, 1, 0]);
}

#[test]
fn delay_0_leaves_as_it_comes_and_buffer_0_admits_nothing() {
    let lists: [&[u32]; 3] = [&[2, 0, 2], &[3, 0, 2], &[2, 0, 2]];
    check(&[0, 2, 3], (0, 9), &[5, 0, 4], lists, &[0, 0, 0]);
    let lists: [&[u32]; 3] = [&[0, 0, 0], &[5, 0, 4], &[0, 0, 0]];
    check(&[0, 2, 3], (1, 0), &[5, 0, 4], lists, &[0, 0, 0]);
}

/// The row with both limits none is a file's alone.
#[test]
fn without_limits_nothing_is_set_up() {
    let limits = (NO_DELAY, NO_BUFFER);
    let refusal = Refusal::BothLimitsNone;
    let live = Regulator::set_up(&[0, 2, 3], limits.0, limits.1);
    assert_eq!(live.err(), Some(refusal));
    let found = run(&[0, 2, 3], limits, &[5, 0, 4], [3; 3]);
    assert_eq!(found, refused(refusal, [3; 3]));
}

#[test]
fn an_envelope_of_zeros_fills_the_buffer() {
    let lists: [&[u32]; 3] = [&[3, 2], &[0, 2], &[0, 0]];
    check(&[0, 0], (NO_DELAY, 5), &[3, 4], lists, &[3, 5]);
}

#[test]
fn the_six_packet_burst() {
    let table = [0, 4, 8, 12, 16, 17, 18];
    let lists: [&[u32]; 3] = [&[4, 4, 4, 4], &[2, 2, 2, 2], &[4, 4, 4, 4]];
    check(&table, (NO_DELAY, 4), &[6, 6, 6, 6], lists, &[0, 0, 0, 0]);
}

#[test]
fn an_empty_trace_is_accepted() {
    check(&[0, 2, 3], (1, 9), &[], [&[], &[], &[]], &[]);
}

#[test]
fn the_last_numbers_that_pass() {
    let windows = Some(Refusal::WindowsOutOfRange);
    for (entries, wanted) in [(65, None), (66, windows), (1, windows)] {
        assert_eq!(Regulator::set_up(&vec![0; entries], 1, 9).err(), wanted);
    }
    let delay = Some(Refusal::DelayOutOfRange);
    for (limit, wanted) in [(64, None), (255, None), (65, delay), (254, delay)] {
        assert_eq!(Regulator::set_up(&[0, 2, 3], limit, 9).err(), wanted);
    }
    assert_eq!(envelope(&[0, 2, 3], 4_161), Err(Refusal::WindowTooLong));
}

#[test]
fn the_most_arrivals_that_pass() {
    let lists: [&[u32]; 3] = [&[3], &[999_997], &[2]];
    check(&[0, 2, 3], (1, 9), &[1_000_000], lists, &[1]);
    let found = run(&[0, 2, 3], (1, 9), &[1_000_001], [1; 3]);
    assert_eq!(found, refused(Refusal::TooManyArrivals, [1; 3]));
}
