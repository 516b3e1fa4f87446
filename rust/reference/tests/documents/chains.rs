//! Document 02, 2.8: chains by hand, and on every tiny trace.

use reference::chain::{Chain, Mark, Trace, check, find};
use reference::layout::{NO_BUFFER, NO_DELAY};
use reference::refusal::Refusal;
use reference::tiny::traces;

const NO_DELAY_LIMIT: u64 = NO_DELAY as u64;
const NO_BUFFER_LIMIT: u64 = NO_BUFFER as u64;
const TABLES: [&[u64]; 5] = [
    &[0, 1],
    &[0, 2, 3],
    &[0, 2, 5],
    &[0, 0, 1, 3],
    &[0, 3, 3, 3],
];
const LIMITS: [(u64, u64); 5] = [
    (1, 3),
    (0, 9),
    (2, 1),
    (1, NO_BUFFER_LIMIT),
    (NO_DELAY_LIMIT, 2),
];

fn cases() -> impl Iterator<Item = (&'static [u64], (u64, u64))> {
    TABLES
        .into_iter()
        .flat_map(|table| LIMITS.map(|limits| (table, limits)))
}

fn chain(slots: &[u64], marks: &[u64], amounts: &[u64]) -> Chain {
    Chain {
        slots: slots.to_vec(),
        marks: marks.to_vec(),
        amounts: amounts.to_vec(),
    }
}

fn found(table: &[u64], (d, q): (u64, u64), arrivals: &[u64], slot: u64) -> Chain {
    let lengths = [arrivals.len() + 1; 3];
    find(table, d, q, arrivals, slot, lengths).expect("an accepted question")
}

/// The chain's places in lists one longer than the trace, with rubbish after them.
fn lent(chain: &Chain, slots: usize) -> Chain {
    let filled = |list: &[u64]| {
        let mut list = list.to_vec();
        list.resize(slots + 1, 77);
        list
    };
    Chain {
        slots: filled(&chain.slots),
        marks: filled(&chain.marks),
        amounts: filled(&chain.amounts),
    }
}

fn accepted(table: &[u64], (d, q): (u64, u64), arrivals: &[u64], chain: &Chain) -> bool {
    let slot = chain.slots.last().copied().unwrap_or(0);
    let lists = lent(chain, arrivals.len());
    let places = chain.slots.len() as u64;
    check(table, d, q, arrivals, slot, &lists, places).expect("an accepted question")
}

/// Document 01's row: admitted 3,0,3,0. Slot 1 may have f(2) = 3 by its deadline; slot 3, with
/// f(4) = 6 counted from slot 0, has that in one link.
#[test]
fn a_row_of_the_document() {
    let (table, limits, arrivals) = (&[0, 2, 3], (1, 9), [5, 0, 4, 0]);
    let at = |slot| found(table, limits, &arrivals, slot);
    assert_eq!(at(0), chain(&[0], &[0], &[0]));
    assert_eq!(at(1), chain(&[0, 1], &[0, 2], &[0, 3]));
    assert_eq!(at(2), chain(&[0, 1, 2], &[0, 2, 1], &[0, 3, 0]));
    assert_eq!(at(3), chain(&[0, 3], &[0, 2], &[0, 6]));
    assert_eq!(at(4), chain(&[0, 3, 4], &[0, 2, 1], &[0, 6, 0]));
}

/// The six-packet burst: X is 4, 8, 12, 16.
#[test]
fn the_six_packet_burst() {
    let table = &[0, 4, 8, 12, 16, 17, 18];
    let at = |slot| found(table, (NO_DELAY_LIMIT, 4), &[6; 4], slot);
    assert_eq!(at(2), chain(&[0, 2], &[0, 3], &[0, 8]));
    assert_eq!(at(3), chain(&[0, 3], &[0, 3], &[0, 12]));
    assert_eq!(at(4), chain(&[0, 4], &[0, 3], &[0, 16]));
}

/// Where arrivals and a limit bound alike, the lower mark is taken.
#[test]
fn the_lowest_mark_among_equals() {
    assert_eq!(
        found(&[0, 2, 3], (1, 3), &[3], 1),
        chain(&[0, 1], &[0, 1], &[0, 3])
    );
    assert_eq!(
        found(&[0, 2, 3], (1, 3), &[4], 1),
        chain(&[0, 1], &[0, 2], &[0, 3])
    );
}

#[test]
fn a_found_chain_is_accepted_and_its_sum_is_what_was_admitted() {
    for (table, limits) in cases() {
        for arrivals in (0..=4).flat_map(traces) {
            let trace = Trace::new(table, limits.0, limits.1, &arrivals).expect("a trace");
            for slot in 0..=arrivals.len() {
                let chain = found(table, limits, &arrivals, slot as u64);
                assert!(accepted(table, limits, &arrivals, &chain), "{chain:?}");
                let sum: u64 = chain.amounts.iter().sum();
                assert_eq!(sum, trace.totals.admitted[slot]);
                assert!(chain.slots.len() <= slot + 1);
            }
        }
    }
}

/// Every chain to a slot: each way to rise from 0 to it, each link with each mark.
fn all_chains(trace: &Trace, slot: usize) -> Vec<Chain> {
    if slot == 0 {
        return vec![chain(&[0], &[0], &[0])];
    }
    let mut all = Vec::new();
    for first in 0..slot {
        for before in all_chains(trace, first) {
            for mark in Mark::ALL {
                let Some(amount) = trace.amount(mark, first, slot) else {
                    continue;
                };
                let mut longer = before.clone();
                longer.slots.push(slot as u64);
                longer.marks.push(mark.number());
                longer.amounts.push(amount);
                all.push(longer);
            }
        }
    }
    all
}

#[test]
fn no_accepted_chain_is_below_what_was_admitted() {
    for (table, limits) in cases() {
        for arrivals in traces(3).step_by(2) {
            let trace = Trace::new(table, limits.0, limits.1, &arrivals).expect("a trace");
            for slot in 0..=3 {
                for chain in all_chains(&trace, slot) {
                    assert!(accepted(table, limits, &arrivals, &chain));
                    let sum: u64 = chain.amounts.iter().sum();
                    assert!(sum >= trace.totals.admitted[slot], "{chain:?}");
                }
            }
        }
    }
}

#[test]
fn an_unsound_chain_is_a_plain_no() {
    let (table, limits, arrivals) = (&[0, 2, 3], (1, 9), [5, 0, 4, 0]);
    let sound = chain(&[0, 1, 3], &[0, 2, 2], &[0, 3, 5]);
    assert!(accepted(table, limits, &arrivals, &sound));
    for (slots, marks, amounts) in [
        ([0, 1, 3], [0, 2, 2], [0, 3, 4]),
        ([0, 1, 3], [0, 2, 2], [0, 4, 5]),
        ([0, 1, 3], [0, 2, 1], [0, 3, 5]),
        ([0, 1, 3], [0, 2, 0], [0, 3, 5]),
        ([0, 1, 3], [0, 2, 4], [0, 3, 5]),
        ([0, 1, 3], [1, 2, 2], [0, 3, 5]),
        ([0, 1, 3], [0, 2, 2], [1, 3, 5]),
        ([1, 1, 3], [0, 2, 2], [0, 3, 5]),
        ([0, 3, 3], [0, 2, 2], [0, 6, 0]),
        ([0, 4, 3], [0, 2, 2], [0, 8, 0]),
        ([0, u64::MAX, 3], [0, 2, 2], [0, 3, 5]),
    ] {
        let unsound = chain(&slots, &marks, &amounts);
        assert!(!accepted(table, limits, &arrivals, &unsound), "{unsound:?}");
    }
    let by_buffer = chain(&[0, 3], &[0, 3], &[0, 12]);
    assert!(accepted(table, limits, &arrivals, &by_buffer));
    assert!(!accepted(
        table,
        (1, NO_BUFFER_LIMIT),
        &arrivals,
        &by_buffer
    ));
    let by_delay = chain(&[0, 3], &[0, 2], &[0, 6]);
    assert!(accepted(table, limits, &arrivals, &by_delay));
    assert!(!accepted(table, (NO_DELAY_LIMIT, 9), &arrivals, &by_delay));
}

#[test]
fn the_number_of_places_and_the_slot() {
    let (table, arrivals) = (&[0, 2, 3], [5, 0, 4, 0]);
    let lists = lent(&chain(&[0, 3], &[0, 2], &[0, 6]), 4);
    let checked = |slot, places| check(table, 1, 9, &arrivals, slot, &lists, places);
    assert_eq!(checked(3, 2), Ok(true));
    assert_eq!(checked(0, 1), Ok(true));
    for (slot, places) in [
        (3, 0),
        (3, 1),
        (3, 3),
        (3, 6),
        (3, u64::MAX),
        (4, 2),
        (2, 2),
        (0, 2),
    ] {
        assert_eq!(checked(slot, places), Ok(false), "{slot} {places}");
    }
    let empty = chain(&[0], &[0], &[0]);
    assert_eq!(check(table, 1, 9, &[], 0, &empty, 1), Ok(true));
    assert_eq!(check(table, 1, 9, &[], 0, &empty, 2), Ok(false));
}

#[test]
fn refusals_in_their_order() {
    let number =
        |table: &[u64], limits: (u64, u64), arrivals: &[u64], slot, lengths: [usize; 3]| {
            let (delay, buffer) = limits;
            let refused = find(table, delay, buffer, arrivals, slot, lengths).err();
            let lists = Chain {
                slots: vec![0; lengths[0]],
                marks: vec![0; lengths[1]],
                amounts: vec![0; lengths[2]],
            };
            let checked = check(table, delay, buffer, arrivals, slot, &lists, 0).err();
            assert_eq!(refused, checked);
            refused.map_or(0, Refusal::number)
        };
    let (good, bad) = (&[0, 2, 3][..], &[0, 3, 2][..]);
    let (long, wrong) = (vec![1_000_001; 4_097], (65, 1_000_001));
    assert_eq!(number(bad, wrong, &long, 9_999, [0; 3]), 4);
    assert_eq!(number(good, wrong, &long, 9_999, [0; 3]), 6);
    assert_eq!(number(good, (1, 1_000_001), &long, 9_999, [0; 3]), 7);
    assert_eq!(number(good, (1, 9), &long, 9_999, [4_098; 3]), 10);
    let arrivals = [5, 1_000_001];
    for lengths in [[2, 3, 3], [3, 4, 3], [3, 3, 2], [2; 3], [0; 3]] {
        assert_eq!(number(good, (1, 9), &arrivals, 3, lengths), 11);
    }
    assert_eq!(number(good, (1, 9), &arrivals, 3, [3; 3]), 8);
    assert_eq!(number(good, (1, 9), &[5, 4], 3, [3; 3]), 18);
    assert_eq!(number(good, (1, 9), &[5, 4], u64::MAX, [3; 3]), 18);
    assert_eq!(number(good, (1, 9), &[5, 4], 2, [3; 3]), 0);
    assert_eq!(number(good, (1, 9), &[], 0, [1; 3]), 0);
    assert_eq!(number(good, (1, 9), &[], 1, [1; 3]), 18);
}
