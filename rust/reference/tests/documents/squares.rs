//! Document 02, 2.10: squares by hand, their closure in two ways, and on tiny traces a search through
//! all permitted pairs that keep F itself.

use reference::layout::{NO_BUFFER, NO_DELAY};
use reference::permitted::{Pair, Terms, premise, totals};
use reference::refusal::Refusal;
use reference::regulator::Limits;
use reference::square::{LAST_SLOT, Square, by_chains, close, of_table, run};
use reference::tiny::traces;
use reference::trace::{self, Lists};

const NO_DELAY_LIMIT: u64 = NO_DELAY as u64;
const NO_BUFFER_LIMIT: u64 = NO_BUFFER as u64;

/// A square whose rows go on after the diagonal as given, and stay at their last number.
fn square(rows: &[&[u64]]) -> Square {
    let mut square = [[0; LAST_SLOT + 1]; LAST_SLOT + 1];
    for (s, row) in square.iter_mut().enumerate() {
        let given = rows.get(s).copied().unwrap_or(&[]);
        for (place, entry) in row[s + 1..].iter_mut().enumerate() {
            *entry = given.get(place).or(given.last()).copied().unwrap_or(0);
        }
    }
    square
}

/// The allowance of each slot, which lasts for that slot alone; the last one goes on.
fn by_slots(allowances: &[u64]) -> Square {
    let allowed = |slot: usize| allowances[(slot - 1).min(allowances.len() - 1)];
    let mut square = [[0; LAST_SLOT + 1]; LAST_SLOT + 1];
    for (s, row) in square.iter_mut().enumerate() {
        for t in s + 1..=LAST_SLOT {
            row[t] = row[t - 1] + allowed(t);
        }
    }
    square
}

fn answered(square: &Square, (delay, buffer): (u64, u64), arrivals: &[u64]) -> Lists {
    let lengths = [arrivals.len(); 3];
    run(square, delay, buffer, arrivals, lengths).expect("an accepted run")
}

/// The cable link of `docs/PENCIL.md`: 2 packets in each of slots 1 and 2, none in slots 3 to 5, 3 from
/// slot 6 on, and some windows of several slots with bounds of their own.
const CABLE: [&[u64]; 7] = [
    &[2, 3, 5, 5, 5, 7, 9],
    &[2, 2, 2, 2, 5, 8],
    &[0, 0, 0, 3, 5],
    &[0, 0, 3, 5],
    &[0, 3, 5],
    &[3, 5],
    &[3],
];

/// The first seven slots of a square, after the diagonal.
fn near(square: &Square) -> Vec<&[u64]> {
    (0..7).map(|s| &square[s][s + 1..=7]).collect()
}

#[test]
fn the_page_s_square_closes_below_itself() {
    let cable = square(&CABLE);
    assert_eq!(near(&cable), CABLE);
    let closed: [&[u64]; 7] = [
        &[2, 3, 3, 3, 3, 6, 8],
        &[2, 2, 2, 2, 5, 7],
        &[0, 0, 0, 3, 5],
        &[0, 0, 3, 5],
        &[0, 3, 5],
        &[3, 5],
        &[3],
    ];
    assert_eq!(near(&close(&cable)), closed);
}

#[test]
fn the_page_s_rows_with_a_buffer_limit() {
    let lists = answered(&square(&CABLE), (NO_DELAY_LIMIT, 4), &[5, 3, 1, 2, 6, 0, 1]);
    assert_eq!(totals(&lists.admitted), [0, 4, 6, 7, 7, 7, 7, 8]);
    assert_eq!(totals(&lists.departed), [0, 2, 3, 3, 3, 3, 6, 8]);
    assert_eq!(lists.admitted, [4, 2, 1, 0, 0, 0, 1]);
    assert_eq!(lists.dropped, [1, 1, 0, 2, 6, 0, 0]);
    assert_eq!(lists.departed, [2, 1, 0, 0, 0, 3, 2]);
}

#[test]
fn the_page_s_rows_with_a_delay_limit() {
    let lists = answered(&square(&CABLE), (1, NO_BUFFER_LIMIT), &[5, 3, 1, 2, 6, 0]);
    assert_eq!(lists.admitted, [3, 0, 0, 0, 3, 0]);
    assert_eq!(lists.dropped, [2, 3, 1, 2, 3, 0]);
    assert_eq!(lists.departed, [2, 1, 0, 0, 0, 3]);
}

fn squares() -> Vec<Square> {
    vec![
        square(&CABLE),
        by_slots(&[2, 0, 0, 0, 3, 1]),
        by_slots(&[1, 3, 0, 2]),
        of_table(&[0, 2, 3]),
        of_table(&[0, 3, 3, 3]),
        square(&[&[1, 5], &[2, 2, 9], &[0, 4], &[3], &[1, 1, 2]]),
        square(&[&[0, 0, 4], &[2, 3], &[2], &[0, 3], &[1]]),
        square(&[&[4], &[3], &[2], &[1], &[1]]),
    ]
}

#[test]
fn the_closure_is_the_least_sum_along_chains() {
    for square in squares() {
        for (s, row) in close(&square).iter().enumerate() {
            for (t, &entry) in row.iter().enumerate().take(s + 15) {
                let wanted = if t <= s { 0 } else { by_chains(&square, s, t) };
                assert_eq!(entry, wanted, "{s} {t}");
            }
        }
    }
}

/// It is closed, and nowhere above the square; its rows are 0 up to the diagonal and do not fall.
#[test]
fn the_closure_is_closed() {
    for square in squares() {
        let closed = close(&square);
        assert_eq!(close(&closed), closed);
        for s in 0..=LAST_SLOT {
            assert!(closed[s].is_sorted() && closed[s][..=s].iter().all(|&entry| entry == 0));
            for t in s..=LAST_SLOT {
                assert!(closed[s][t] <= square[s][t]);
                assert!((s..=t).all(|u| closed[s][t] <= closed[s][u] + closed[u][t]));
            }
        }
    }
}

const LIMITS: [(u64, u64); 7] = [
    (0, 3),
    (1, 1),
    (1, 3),
    (2, 2),
    (2, NO_BUFFER_LIMIT),
    (NO_DELAY_LIMIT, 1),
    (NO_DELAY_LIMIT, 3),
];

/// Our pair, which is permitted, and the greatest totals of all pairs that keep F itself, not its
/// closure.
fn ours_and_greatest(square: &Square, limits: (u64, u64), arrivals: &[u64]) -> [Pair; 2] {
    let lists = answered(square, limits, arrivals);
    let terms = Terms {
        f: square,
        limits: Limits::from_numbers(limits.0, limits.1).expect("accepted limits"),
        arrived: &totals(arrivals),
    };
    let ours = Pair {
        admitted: totals(&lists.admitted),
        departed: totals(&lists.departed),
    };
    assert!(terms.permit(&ours), "{limits:?} {arrivals:?}");
    [ours, terms.greatest()]
}

#[test]
fn nothing_permitted_loses_less() {
    let mut lossy = 0;
    for square in squares() {
        for (delay, buffer) in LIMITS {
            let limits = Limits::from_numbers(delay, buffer).expect("accepted limits");
            for mut arrivals in (0..=3).flat_map(traces) {
                let arrived: u64 = arrivals.iter().sum();
                arrivals.resize(arrivals.len() + limits.delay.unwrap_or(0), 0);
                assert!(premise(limits, &arrivals));
                let [ours, greatest] = ours_and_greatest(&square, (delay, buffer), &arrivals);
                assert_eq!(ours, greatest, "{delay} {buffer} {arrivals:?}");
                lossy += usize::from(ours.admitted.last() < Some(&arrived));
            }
        }
    }
    assert!(lossy > 1_000, "{lossy}");
}

/// Without the premise our pair is permitted too, but somebody who knows that the trace ends may admit
/// more.
#[test]
fn the_premise_is_needed() {
    let mut more = 0;
    for square in squares() {
        for limits in LIMITS {
            for arrivals in (0..=3).flat_map(traces) {
                let [ours, greatest] = ours_and_greatest(&square, limits, &arrivals);
                more += usize::from(ours != greatest);
            }
        }
    }
    assert!(more > 100, "{more}");
}

#[test]
fn a_square_made_from_a_table_gives_its_rows() {
    let tables = [
        vec![0, 1],
        vec![0, 2, 3],
        vec![0, 2, 5],
        vec![0, 0, 5],
        vec![0, 31_250],
    ];
    for table in tables {
        for (delay, buffer) in LIMITS {
            for arrivals in traces(4) {
                let wanted = trace::run(&table, delay, buffer, &arrivals, [4; 3]);
                let found = run(&of_table(&table), delay, buffer, &arrivals, [4; 3]);
                assert_eq!(found, wanted, "{table:?} {delay} {buffer} {arrivals:?}");
            }
        }
    }
}

/// Only slots up to T + d are looked at.
#[test]
fn entries_beyond_the_last_deadline_do_not_matter() {
    for square in squares() {
        for (delay, buffer) in LIMITS {
            for arrivals in traces(3).step_by(3) {
                let reached = 3 + if delay == NO_DELAY_LIMIT {
                    0
                } else {
                    delay as usize
                };
                let wanted = answered(&square, (delay, buffer), &arrivals);
                let mut other = square;
                for (s, row) in other.iter_mut().enumerate() {
                    row[reached.max(s) + 1..].fill(1_000_000);
                }
                assert_eq!(answered(&other, (delay, buffer), &arrivals), wanted);
            }
        }
    }
}

/// The number of the refusal, 0 where accepted.
fn number(
    square: &Square,
    (delay, buffer): (u64, u64),
    arrivals: &[u64],
    lengths: [usize; 3],
) -> u8 {
    let outcome = run(square, delay, buffer, arrivals, lengths);
    outcome.map_or_else(Refusal::number, |_| 0)
}

#[test]
fn refusals_in_their_order() {
    let wrong = (65, 1_000_001);
    let long = vec![1_000_001; 33];
    let mut bad = square(&CABLE);
    bad[1][3] = 1;
    assert_eq!(number(&bad, wrong, &long, [0; 3]), 4);
    bad[1][6] = 1_000_001;
    assert_eq!(number(&bad, wrong, &long, [0; 3]), 4);
    bad[0][1] = 1_000_001;
    assert_eq!(number(&bad, wrong, &long, [0; 3]), 3);
    for (s, t) in [(0, 0), (32, 32), (32, 0), (16, 15)] {
        let mut below = bad;
        below[s][t] = 1;
        assert_eq!(number(&below, wrong, &long, [0; 3]), 19);
    }
    let good = square(&CABLE);
    let both = (NO_DELAY_LIMIT, NO_BUFFER_LIMIT);
    assert_eq!(number(&good, wrong, &long, [0; 3]), 6);
    assert_eq!(number(&good, (64, 1_000_001), &long, [0; 3]), 7);
    assert_eq!(number(&good, both, &long, [0; 3]), 23);
    assert_eq!(number(&good, (64, 9), &long, [0; 3]), 20);
    assert_eq!(number(&good, (1, 9), &[1_000_001], [1, 2, 1]), 11);
    assert_eq!(number(&good, (1, 9), &[1_000_001], [1; 3]), 8);
    assert_eq!(number(&good, (1, 9), &[1_000_000], [1; 3]), 0);
}

/// 32 - d slots are the most, 32 with no delay limit; with d 33 to 64 not even none.
#[test]
fn the_longest_trace() {
    let good = square(&CABLE);
    for delay in (0..=64).chain([NO_DELAY_LIMIT]) {
        for slots in 0..=40 {
            let most = match delay {
                NO_DELAY_LIMIT => Some(32),
                _ => 32_usize.checked_sub(delay as usize),
            };
            let wanted = if most.is_some_and(|most| slots <= most) {
                0
            } else {
                20
            };
            assert_eq!(
                number(&good, (delay, 9), &vec![1; slots], [slots; 3]),
                wanted
            );
        }
    }
}
