//! Document 02, 2.13: the trace that loses most by hand, and greed beside a search through all traces.

use reference::layout::{NO_BUFFER, NO_DELAY};
use reference::refusal::Refusal;
use reference::tiny::TABLES;
use reference::trace;
use reference::worst::{Within, Worst, by_greed, by_search};

const LIMITS: [(u64, u64); 9] = [
    (0, 1),
    (0, 9),
    (1, 0),
    (1, 3),
    (2, 1),
    (1, NO_BUFFER as u64),
    (3, NO_BUFFER as u64),
    (NO_DELAY as u64, 0),
    (NO_DELAY as u64, 2),
];

fn within(slots: u64, most_in_slot: u64, most_in_all: u64) -> Within {
    Within {
        slots,
        most_in_slot,
        most_in_all,
    }
}

/// The search's answer, which greed has to give too; what it loses is what the run drops.
fn worst(table: &[u64], (delay, buffer): (u64, u64), limits: Within) -> Worst {
    let length = limits.slots as usize;
    let found = by_search(table, delay, buffer, limits, length).expect("accepted limits");
    let greedy = by_greed(table, delay, buffer, limits, length);
    let case = format!("table {table:?} delay {delay} buffer {buffer} {limits:?}");
    assert_eq!(greedy.as_ref(), Ok(&found), "{case}");
    let lists = trace::run(table, delay, buffer, &found.trace, [length; 3]).expect("a trace");
    assert_eq!(lists.dropped.iter().sum::<u64>(), found.loss, "{case}");
    found
}

/// Table 0,2,3, d 1, q 9: of 5 packets in slot 1 two are lost, of 4 in slot 2 all but f(3) - 3 = 2, and
/// so on: X is 3, 5, 6.
#[test]
fn by_hand() {
    let of = |limits| worst(&[0, 2, 3], (1, 9), limits);
    let found = |trace: &[u64], loss| Worst {
        trace: trace.to_vec(),
        loss,
    };
    assert_eq!(of(within(0, 5, 9)), found(&[], 0));
    assert_eq!(of(within(1, 5, 9)), found(&[5], 2));
    assert_eq!(of(within(2, 5, 9)), found(&[5, 4], 4));
    assert_eq!(of(within(3, 5, 12)), found(&[5, 5, 2], 6));
    assert_eq!(of(within(3, 5, 0)), found(&[0, 0, 0], 0));
    assert_eq!(of(within(3, 0, 9)), found(&[0, 0, 0], 0));
    // Nothing can be lost, and still the earliest slots have the most.
    assert_eq!(of(within(3, 2, 3)), found(&[2, 1, 0], 0));
}

#[test]
fn greed_loses_most() {
    let mut lossy = 0;
    for (table, limits) in TABLES.iter().flat_map(|t| LIMITS.map(|l| (*t, l))) {
        for slots in 0..=4 {
            for (in_slot, in_all) in (0..=3).flat_map(|p| (0..=10).map(move |all| (p, all))) {
                let found = worst(table, limits, within(slots, in_slot, in_all));
                lossy += usize::from(found.loss > 0);
            }
        }
    }
    assert!(lossy > 2_000, "{lossy}");
}

#[test]
fn refusals_in_their_order() {
    let (table, none) = (&[0, 2, 3][..], (NO_DELAY.into(), NO_BUFFER.into()));
    for (table, (delay, buffer), slots, length, in_slot, refusal) in [
        (&[0][..], (65, 1_000_001), 4_097, 0, 1_000_001, 1),
        (&[0, 3, 2], (65, 1_000_001), 4_097, 0, 1_000_001, 4),
        (table, (65, 1_000_001), 4_097, 0, 1_000_001, 6),
        (table, (64, 1_000_001), 4_097, 0, 1_000_001, 7),
        (table, none, 4_097, 0, 1_000_001, 23),
        (table, (64, 9), 4_097, 0, 1_000_001, 10),
        (table, (64, 9), 4_096, 0, 1_000_001, 11),
        (table, (64, 9), 4, 4, 1_000_001, 8),
        (table, (64, 9), 0, 0, 1_000_001, 8),
    ] {
        let limits = within(slots, in_slot, 9);
        let found = by_greed(table, delay, buffer, limits, length);
        assert_eq!(found.map_err(Refusal::number), Err(refusal));
    }
    assert!(by_greed(table, 64, 9, within(4_096, 1_000_000, 0), 4_096).is_ok());
}
