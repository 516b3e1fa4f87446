//! Document 02, 2.5: regulators in a row by hand, and on every tiny trace.

use reference::layout::{NO_BUFFER, NO_DELAY};
use reference::path::{entrance_envelope, least_envelope, run};
use reference::permitted::{Pair, Terms, premise, totals};
use reference::refusal::Refusal;
use reference::regulator::Limits;
use reference::tiny::traces;
use reference::trace::Lists;
use reference::{closure, trace};

const NO_DELAY_LIMIT: u64 = NO_DELAY as u64;
const NO_BUFFER_LIMIT: u64 = NO_BUFFER as u64;
const LIMITS: [(u64, u64); 5] = [
    (0, 3),
    (1, 1),
    (2, NO_BUFFER_LIMIT),
    (1, 3),
    (NO_DELAY_LIMIT, 2),
];

fn paths() -> Vec<Vec<Vec<u64>>> {
    vec![
        vec![vec![0, 2, 3]],
        vec![vec![0, 2, 3], vec![0, 1]],
        vec![vec![0, 3, 3, 3], vec![0, 1, 3]],
        vec![vec![0, 4], vec![0, 4, 4, 4, 9], vec![0, 2, 5]],
        vec![vec![0, 2, 2], vec![0, 1, 4, 4], vec![0, 3], vec![0, 2, 3]],
        vec![vec![0, 0, 5], vec![0, 2]],
    ]
}

fn answered(tables: &[Vec<u64>], (delay, buffer): (u64, u64), arrivals: &[u64]) -> Lists {
    let slots = arrivals.len();
    let lengths = [slots, slots, tables.len() * slots];
    run(tables, delay, buffer, arrivals, lengths).expect("an accepted run")
}

fn last_stage(lists: &Lists) -> &[u64] {
    &lists.departed[lists.departed.len() - lists.admitted.len()..]
}

/// 0,3,3 closes to 0,3,3,6,6,9,9 and 0,2 to 0,2,4,6,8,10,12: the least at window 3, which is 6, is
/// more than those at windows 1 and 2 together.
#[test]
fn the_least_of_closed_envelopes_is_closed_again() {
    let tables = [vec![0, 3, 3], vec![0, 2]];
    assert_eq!(least_envelope(&tables, 6), [0, 2, 3, 6, 6, 9, 9]);
    assert_eq!(entrance_envelope(&tables, 6), [0, 2, 3, 5, 6, 8, 9]);
}

#[test]
fn two_stages_by_hand() {
    let tables = [vec![0, 2, 3], vec![0, 1]];
    let lists = answered(&tables, (1, 9), &[5, 0, 4, 0]);
    // f is 0,1,2,3,..; g(1) is f(2).
    assert_eq!(lists.admitted, [2, 0, 2, 0]);
    assert_eq!(lists.dropped, [3, 0, 2, 0]);
    assert_eq!(lists.departed, [2, 0, 2, 0, 1, 1, 1, 1]);
}

#[test]
fn one_stage_is_a_whole_trace_run() {
    for table in [vec![0, 2, 3], vec![0, 1], vec![0, 0, 5], vec![0, 3, 3, 3]] {
        for (limits, arrivals) in LIMITS
            .into_iter()
            .flat_map(|l| traces(4).map(move |a| (l, a)))
        {
            let wanted = trace::run(&table, limits.0, limits.1, &arrivals, [4; 3]);
            let wanted = wanted.expect("an accepted run");
            let found = answered(std::slice::from_ref(&table), limits, &arrivals);
            assert_eq!(found, wanted);
        }
    }
}

#[test]
fn the_last_stage_does_not_depend_on_the_order() {
    for tables in paths() {
        for arrivals in traces(4).step_by(5) {
            for limits in LIMITS {
                let wanted = answered(&tables, limits, &arrivals);
                let mut turned = tables.clone();
                for _ in 0..tables.len() {
                    turned.rotate_left(1);
                    let mut swapped = turned.clone();
                    swapped.reverse();
                    for other in [&turned, &swapped] {
                        let found = answered(other, limits, &arrivals);
                        assert_eq!(found.admitted, wanted.admitted);
                        assert_eq!(last_stage(&found), last_stage(&wanted));
                    }
                }
            }
        }
    }
}

/// Among pairs whose departures keep every stage's envelope, so the least of them.
#[test]
fn nothing_permitted_loses_less() {
    let mut lossy = 0;
    for tables in paths() {
        for (delay, buffer) in LIMITS {
            let limits = Limits::from_numbers(delay, buffer).expect("accepted limits");
            for mut arrivals in (0..=3).flat_map(traces) {
                let empty = limits.delay.unwrap_or(0);
                arrivals.resize(arrivals.len() + empty, 0);
                assert!(premise(limits, &arrivals));
                let lists = answered(&tables, (delay, buffer), &arrivals);
                let terms = Terms {
                    f: &least_envelope(&tables, arrivals.len()),
                    limits,
                    arrived: &totals(&arrivals),
                };
                let pair = Pair {
                    admitted: totals(&lists.admitted),
                    departed: totals(last_stage(&lists)),
                };
                assert!(terms.permit(&pair));
                assert_eq!(
                    terms.greatest(),
                    pair,
                    "{tables:?} {delay} {buffer} {arrivals:?}"
                );
                lossy += usize::from(lists.dropped.iter().any(|&count| count > 0));
            }
        }
    }
    assert!(lossy > 1_000);
}

/// Every stage's departures keep its envelope, and no stage sends what it has not got.
#[test]
fn every_stage_keeps_its_envelope() {
    for tables in paths() {
        for (limits, arrivals) in LIMITS
            .into_iter()
            .flat_map(|l| traces(4).map(move |a| (l, a)))
        {
            let lists = answered(&tables, limits, &arrivals);
            let mut before = totals(&lists.admitted);
            for (table, counts) in tables.iter().zip(lists.departed.chunks(arrivals.len())) {
                let f = closure::by_recursion(table, arrivals.len());
                let departed = totals(counts);
                for t in 0..departed.len() {
                    assert!(departed[t] <= before[t]);
                    assert!((0..t).all(|s| departed[t] - departed[s] <= f[t - s]));
                }
                before = departed;
            }
        }
    }
}

#[test]
fn refusals_in_their_order() {
    let number = |tables: &[Vec<u64>], limits: (u64, u64), arrivals: &[u64], lengths| {
        let refused = run(tables, limits.0, limits.1, arrivals, lengths).err();
        refused.map_or(0, Refusal::number)
    };
    let (good, bad, large) = (vec![0, 2, 3], vec![0, 3, 2], vec![0, 1_000_001]);
    let (long, wrong) = (vec![1_000_001; 4_097], (65, 1_000_001));
    assert_eq!(number(&[], wrong, &long, [0; 3]), 17);
    assert_eq!(number(&vec![bad.clone(); 5], wrong, &long, [0; 3]), 17);
    let mixed = [good.clone(), bad.clone(), large.clone()];
    assert_eq!(number(&mixed, wrong, &long, [0; 3]), 4);
    let mixed = [good.clone(), large, bad];
    assert_eq!(number(&mixed, wrong, &long, [0; 3]), 3);
    assert_eq!(number(&[good.clone(), vec![0]], wrong, &long, [0; 3]), 1);
    let two = [good.clone(), good.clone()];
    assert_eq!(number(&two, wrong, &long, [0; 3]), 6);
    assert_eq!(number(&two, (64, 1_000_001), &long, [0; 3]), 7);
    assert_eq!(number(&two, (1, 9), &long, [0; 3]), 10);
    let arrivals = [5, 1_000_001];
    for lengths in [
        [2, 2, 2],
        [2, 2, 3],
        [2, 2, 5],
        [1, 2, 4],
        [2, 3, 4],
        [2; 3],
    ] {
        assert_eq!(number(&two, (1, 9), &arrivals, lengths), 11);
    }
    assert_eq!(number(&two, (1, 9), &arrivals, [2, 2, 4]), 8);
    assert_eq!(number(&two, (1, 9), &[5, 1_000_000], [2, 2, 4]), 0);
    assert_eq!(number(&two, (1, 9), &[], [0; 3]), 0);
    assert_eq!(number(&vec![good; 4], (1, 9), &[1], [1, 1, 4]), 0);
}
