//! Document 01, "The lowest loss curve", on every tiny trace under many set-ups.

use reference::closure::by_recursion;
use reference::layout::{NO_BUFFER, NO_DELAY};
use reference::permitted::{Pair, Terms, premise};
use reference::regulator::{Count, Limits, Regulator, Totals};
use reference::tiny::{TABLES, traces};

const DELAYS: [u64; 4] = [0, 1, 2, NO_DELAY as u64];
const BUFFERS: [u64; 4] = [0, 1, 3, NO_BUFFER as u64];
/// Refused with 23.
const BOTH_NONE: (u64, u64) = (NO_DELAY as u64, NO_BUFFER as u64);

fn totals(table: &[u64], delay: u64, buffer: u64, arrivals: &[u64]) -> Totals {
    let mut live = Regulator::set_up(table, delay, buffer).expect("an accepted set-up");
    for &count in arrivals {
        live.slot(count).expect("an accepted slot");
    }
    live.totals().clone()
}

/// Checks one trace by both counts of the buffer, and says whether the premise held.
fn check(table: &[u64], delay: u64, buffer: u64, arrivals: &[u64]) -> bool {
    let limits = Limits::from_numbers(delay, buffer).expect("accepted limits");
    let f = &by_recursion(table, arrivals.len() + limits.delay.unwrap_or(0));
    let live = totals(table, delay, buffer, arrivals);
    assert_eq!(live, Totals::over(f, limits, arrivals));
    let after = limits.counted(Count::AfterDepartures);
    check_pairs(f, limits, arrivals, live);
    check_pairs(f, after, arrivals, Totals::over(f, after, arrivals));
    premise(limits, arrivals)
}

/// Our pair is permitted and, where the premise holds, the greatest of all that are.
fn check_pairs(f: &[u64], limits: Limits, arrivals: &[u64], ours: Totals) {
    let case = format!("f {f:?} {limits:?} arrivals {arrivals:?}");
    let terms = Terms {
        f: &f.to_vec(),
        limits,
        arrived: &ours.arrived,
    };
    let pair = Pair {
        admitted: ours.admitted,
        departed: ours.departed,
    };
    assert!(terms.permit(&pair), "{case}: {pair:?} is not permitted");
    if premise(limits, arrivals) {
        assert_eq!(terms.greatest(), pair, "{case}");
    }
}

#[test]
fn nothing_permitted_loses_less() {
    let mut held_by_premise = 0;
    for table in TABLES {
        let limits = DELAYS.iter().flat_map(|d| BUFFERS.map(|q| (*d, q)));
        for (delay, buffer) in limits.filter(|limits| *limits != BOTH_NONE) {
            for arrivals in (0..=4).flat_map(traces) {
                held_by_premise += usize::from(check(table, delay, buffer, &arrivals));
            }
        }
    }
    assert!(held_by_premise > 20_000, "{held_by_premise} traces");
}

/// With a delay limit the trace has to end in empty slots for the claim, so every short trace is
/// tried with just as many as that.
#[test]
fn nothing_permitted_loses_less_when_every_deadline_lies_in_the_trace() {
    for table in TABLES {
        for (delay, buffer) in [1, 2].iter().flat_map(|d| BUFFERS.map(|q| (*d, q))) {
            for mut arrivals in (0..=3).flat_map(traces) {
                arrivals.resize(arrivals.len() + delay as usize, 0);
                assert!(check(table, delay, buffer, &arrivals));
            }
        }
    }
}

/// Without the premise somebody who knows that the trace ends can admit more.
#[test]
fn the_premise_is_needed() {
    let limits = Limits::from_numbers(1, NO_BUFFER.into()).expect("accepted limits");
    assert!(!premise(limits, &[3]));
    let terms = Terms {
        f: &vec![0, 1],
        limits,
        arrived: &[0, 3],
    };
    assert_eq!(terms.greatest().admitted, [0, 3]);
    assert_eq!(totals(&[0, 1], 1, NO_BUFFER.into(), &[3]).admitted, [0, 2]);
}

#[test]
fn an_empty_trace_has_one_pair() {
    assert!(check(&[0, 2, 3], 0, 0, &[]));
}

/// U(1), U(2), V(1), V(2).
type Four = (u64, u64, u64, u64);

/// The rules of document 01, the buffer's by document 02, 2.9, for table 0,1 (f(1) is 1, f(2) is 2),
/// d 1, q 1 and arrivals 2, 0, each written out.
fn permitted_by_hand((u1, u2, v1, v2): Four) -> bool {
    let never_fall = u1 <= u2 && v1 <= v2;
    let admitted = u1 <= 2 && u2 <= u1;
    let departed = v1 <= u1 && v2 <= u2;
    let envelope = v1 <= 1 && v2 <= 2 && v2 <= v1 + 1;
    let buffer = u1 <= 1 && u2 <= v1 + 1;
    let delay = u1 <= v2;
    never_fall && admitted && departed && envelope && buffer && delay
}

/// Every four numbers from 0 to 3.
fn fours() -> impl Iterator<Item = Four> {
    let digit = |code: u64, place: u32| code / 4_u64.pow(place) % 4;
    (0..256).map(move |code| {
        (
            digit(code, 3),
            digit(code, 2),
            digit(code, 1),
            digit(code, 0),
        )
    })
}

#[test]
fn the_permitted_pairs_of_one_tiny_case() {
    let by_hand: Vec<Four> = fours().filter(|&four| permitted_by_hand(four)).collect();
    let listed = [(0, 0, 0, 0), (1, 1, 0, 1), (1, 1, 1, 1)];
    assert_eq!(by_hand, listed);

    let (table, arrivals) = ([0, 1], [2, 0]);
    let limits = Limits::from_numbers(1, 1).expect("accepted limits");
    let terms = Terms {
        f: &by_recursion(&table, 2),
        limits,
        arrived: &[0, 2, 2],
    };
    let pair = |(u1, u2, v1, v2): Four| Pair {
        admitted: vec![0, u1, u2],
        departed: vec![0, v1, v2],
    };
    assert_eq!(terms.pairs(), listed.map(pair));
    let permitted: Vec<Four> = fours().filter(|&four| terms.permit(&pair(four))).collect();
    assert_eq!(permitted, listed);

    let ours = totals(&table, 1, 1, &arrivals);
    assert!(premise(limits, &arrivals));
    assert_eq!(
        (ours.admitted, ours.departed),
        (vec![0, 1, 1], vec![0, 1, 1])
    );
}
