//! The smallest limits by hand, halving beside a search through all limits, and that nobody does with a
//! smaller one.

use reference::closure::by_recursion;
use reference::fill::Metered;
use reference::layout::{NO_BUFFER, NO_DELAY};
use reference::permitted::{Terms, premise, totals};
use reference::refusal::{MOST_DELAY, MOST_PACKETS, Refusal};
use reference::regulator::{Limits, Totals};
use reference::size::{
    Size, buffer_by_halving, buffer_by_search, delay_by_halving, delay_by_search,
};
use reference::tiny::{TABLES, traces};
use reference::trace;

const DELAYS: [u64; 5] = [0, 1, 2, MOST_DELAY, NO_DELAY as u64];
const BUFFERS: [u64; 5] = [0, 1, 3, MOST_PACKETS, NO_BUFFER as u64];

/// One of the four ways: a table, the other limit, a trace and the most lost.
type Way = fn(&[u64], u64, &[u64], u64) -> Result<Size, Refusal>;

fn size(found: bool, limit: u64, lost: u64) -> Size {
    Size { found, limit, lost }
}

fn lost(table: &[u64], delay: u64, buffer: u64, arrivals: &[u64]) -> u64 {
    let lists = trace::run(table, delay, buffer, arrivals, [arrivals.len(); 3]);
    lists.expect("an accepted trace").dropped.iter().sum()
}

/// Document 01's row, table 0,2,3 and arrivals 5,0,4,0. With d 1 and q 0, 1, 2 and 3 no more than 0, 1,
/// 2 and 3 are admitted in slot 1, and as many in slot 3; from q 3 on the delay limit is what drops.
/// With q 9 and d 0, 1, 2 and 3 no more than f(1), f(2), .. are admitted by slot 1 and f(3), f(4), .. by
/// slot 3: 5, 3, 1 and 0 are lost.
#[test]
fn by_hand() {
    let (table, arrivals) = (&[0, 2, 3], &[5, 0, 4, 0]);
    for way in [buffer_by_search, buffer_by_halving] {
        let of = |most_lost| way(table, 1, arrivals, most_lost);
        for (most_lost, wanted) in [
            (u64::MAX, size(true, 0, 9)),
            (9, size(true, 0, 9)),
            (8, size(true, 1, 7)),
            (7, size(true, 1, 7)),
            (6, size(true, 2, 5)),
            (4, size(true, 3, 3)),
            (3, size(true, 3, 3)),
            (2, size(false, MOST_PACKETS, 3)),
            (0, size(false, MOST_PACKETS, 3)),
        ] {
            assert_eq!(of(most_lost), Ok(wanted), "{most_lost}");
        }
    }
    for way in [delay_by_search, delay_by_halving] {
        let of = |most_lost| way(table, 9, arrivals, most_lost);
        for (most_lost, wanted) in [
            (9, size(true, 0, 5)),
            (5, size(true, 0, 5)),
            (4, size(true, 1, 3)),
            (2, size(true, 2, 1)),
            (0, size(true, 3, 0)),
        ] {
            assert_eq!(of(most_lost), Ok(wanted), "{most_lost}");
        }
        let none = way(table, 0, arrivals, 8);
        assert_eq!(none, Ok(size(false, MOST_DELAY, 9)));
    }
}

/// The most that are lost of a trace, and one more; each number from none to that is asked for.
fn asked(arrivals: &[u64]) -> std::ops::RangeInclusive<u64> {
    0..=arrivals.iter().sum::<u64>() + 1
}

/// Both ways to the smallest limit, which have to agree; the run loses what is told.
fn found(ways: [Way; 2], case: &Case<'_>, run: impl Fn(u64) -> u64) -> Size {
    let [one, other] = ways.map(|way| way(case.table, case.other, case.arrivals, case.most_lost));
    assert_eq!(one, other, "{case:?}");
    let size = one.expect("an accepted trace");
    assert_eq!(size.lost, run(size.limit), "{case:?}");
    assert_eq!(size.found, size.lost <= case.most_lost, "{case:?}");
    size
}

#[derive(Debug)]
struct Case<'a> {
    table: &'a [u64],
    /// The limit that is given.
    other: u64,
    arrivals: &'a [u64],
    most_lost: u64,
}

/// The fewest packets that any permitted pair loses by the last slot.
fn fewest(table: &[u64], delay: u64, buffer: u64, arrivals: &[u64]) -> u64 {
    let terms = Terms {
        f: &by_recursion(table, arrivals.len()),
        limits: Limits::from_numbers(delay, buffer).expect("accepted limits"),
        arrived: &totals(arrivals),
    };
    let last = arrivals.len();
    terms.arrived[last] - terms.greatest().admitted[last]
}

fn ends_in(arrivals: &[u64], delay: u64) -> bool {
    let limits = Limits::from_numbers(delay, 0).expect("accepted limits");
    premise(limits, arrivals)
}

/// All tiny traces: halving is the search, and where the premise holds for the delay limit no pair that
/// is permitted with a smaller buffer loses as few.
#[test]
fn no_smaller_buffer_does() {
    let mut refuted = 0;
    for (table, delay) in TABLES.iter().flat_map(|t| DELAYS.map(|d| (*t, d))) {
        for arrivals in (0..=3).flat_map(traces) {
            for most_lost in asked(&arrivals) {
                let case = Case {
                    table,
                    other: delay,
                    arrivals: &arrivals,
                    most_lost,
                };
                let ways: [Way; 2] = [buffer_by_search, buffer_by_halving];
                let size = found(ways, &case, |buffer| lost(table, delay, buffer, &arrivals));
                if ends_in(&arrivals, delay) {
                    for smaller in 0..size.limit.min(4) {
                        let fewest = fewest(table, delay, smaller, &arrivals);
                        assert!(fewest > most_lost, "{case:?} {smaller}");
                        refuted += 1;
                    }
                }
            }
        }
    }
    assert!(refuted > 10_000, "{refuted}");
}

/// The same of the delay limit. The premise is that of the greatest smaller limit: it holds for all
/// smaller ones then, and they permit no more.
#[test]
fn no_smaller_delay_does() {
    let mut refuted = 0;
    for (table, buffer) in TABLES.iter().flat_map(|t| BUFFERS.map(|q| (*t, q))) {
        for mut arrivals in (0..=2).flat_map(traces) {
            arrivals.resize(arrivals.len() + 2, 0);
            for most_lost in asked(&arrivals) {
                let case = Case {
                    table,
                    other: buffer,
                    arrivals: &arrivals,
                    most_lost,
                };
                let ways: [Way; 2] = [delay_by_search, delay_by_halving];
                let size = found(ways, &case, |delay| lost(table, delay, buffer, &arrivals));
                for smaller in (0..size.limit).filter(|&limit| ends_in(&arrivals, limit)) {
                    let fewest = fewest(table, smaller, buffer, &arrivals);
                    assert!(fewest > most_lost, "{case:?} {smaller}");
                    refuted += 1;
                }
            }
        }
    }
    assert!(refuted > 3_000, "{refuted}");
}

/// Table 0,1 and three packets: ours needs d 2, since f(3) is 3. With d 1 somebody loses none where the
/// trace ends at once, and nobody where it ends in one slot without arrivals, though not in two. With d 1
/// no buffer is large enough for ours, and 3 is for somebody else's where the trace ends at once.
#[test]
fn the_premise_is_that_of_the_smaller_limit() {
    let none = NO_BUFFER.into();
    for (arrivals, by_others) in [(&[3][..], 0), (&[3, 0], 1), (&[3, 0, 0], 1)] {
        assert_eq!(ends_in(arrivals, 1), by_others == 1);
        let delay = delay_by_search(&[0, 1], none, arrivals, 0);
        assert_eq!(delay, Ok(size(true, 2, 0)));
        assert_eq!(fewest(&[0, 1], 1, none, arrivals), by_others);
        let buffer = buffer_by_search(&[0, 1], 1, arrivals, 0);
        assert_eq!(buffer, Ok(size(false, MOST_PACKETS, 1)));
        assert_eq!(fewest(&[0, 1], 1, 3, arrivals), by_others);
    }
}

/// Where ours loses as many with no delay limit, nobody loses fewer with one, however the trace ends.
#[test]
fn a_delay_limit_that_drops_nothing_saves_nobody() {
    let mut ended_early = 0;
    for (table, buffer) in TABLES.iter().flat_map(|t| [0, 1, 3].map(|q| (*t, q))) {
        for arrivals in (0..=3).flat_map(traces) {
            let alone = lost(table, NO_DELAY.into(), buffer, &arrivals);
            for delay in [0, 1, 2, MOST_DELAY] {
                if lost(table, delay, buffer, &arrivals) == alone {
                    let fewest = fewest(table, delay, buffer, &arrivals);
                    assert_eq!(fewest, alone, "{table:?} {delay} {buffer} {arrivals:?}");
                    ended_early += u32::from(!ends_in(&arrivals, delay));
                }
            }
        }
    }
    assert!(ended_early > 500, "{ended_early}");
}

/// What is lost by each slot.
fn curve(table: &[u64], delay: u64, buffer: u64, arrivals: &[u64]) -> Vec<u64> {
    let lists = trace::run(table, delay, buffer, arrivals, [arrivals.len(); 3]);
    totals(&lists.expect("an accepted trace").dropped)
}

/// The bench's peak without a buffer limit is the smallest buffer with which no slot has lost more than
/// under the delay limit alone.
#[test]
fn the_bench_s_peak_is_the_buffer_that_costs_nothing() {
    for (table, delay) in TABLES.iter().flat_map(|t| [0, 1, 2, 3].map(|d| (*t, d))) {
        for arrivals in (0..=4).flat_map(traces) {
            let none = NO_BUFFER.into();
            let mut alone = Metered::set_up(table, delay, none).expect("an accepted set-up");
            for &count in &arrivals {
                alone.slot(count).expect("an accepted slot");
            }
            let least = curve(table, delay, none, &arrivals);
            let mut buffers = 0..=MOST_PACKETS;
            let smallest = buffers.find(|&q| curve(table, delay, q, &arrivals) == least);
            let case = format!("table {table:?} delay {delay} arrivals {arrivals:?}");
            assert_eq!(smallest, Some(alone.peaks().bench), "{case}");
        }
    }
}

/// What the search leaves out: every limit from all arrivals to the greatest loses the same.
#[test]
fn limits_above_all_arrivals_lose_alike() {
    for (table, delay, arrivals) in [
        (&[0, 1][..], 0, &[2][..]),
        (&[0, 0], NO_DELAY.into(), &[1, 1]),
        (&[0, 1, 1], 2, &[0, 3]),
    ] {
        let f = by_recursion(table, arrivals.len() + 2);
        let totals = |buffer| {
            let limits = Limits::from_numbers(delay, buffer).expect("accepted limits");
            Totals::over(&f, limits, arrivals)
        };
        let all = arrivals.iter().sum();
        let greatest = totals(MOST_PACKETS);
        assert!((all..MOST_PACKETS).all(|buffer| totals(buffer) == greatest));
    }
}

#[test]
fn refusals_in_their_order() {
    let (table, long, many) = (
        &[0, 2, 3][..],
        vec![1_000_001; 4_097],
        vec![1_000_001; 4_096],
    );
    for (table, delay, arrivals, number) in [
        (&[0][..], 65, &long, 1),
        (&[1, 2], 65, &long, 2),
        (&[0, 1_000_001], 65, &long, 3),
        (&[0, 3, 2], 65, &long, 4),
        (table, 65, &long, 6),
        (table, 254, &long, 6),
        (table, 64, &long, 10),
        (table, 255, &many, 8),
    ] {
        for way in [buffer_by_search, buffer_by_halving] {
            let found = way(table, delay, arrivals, 0).map_err(Refusal::number);
            assert_eq!(found, Err(number));
        }
        let buffer = match delay {
            65 => MOST_PACKETS + 1,
            254 => u64::from(NO_BUFFER) - 1,
            64 => MOST_PACKETS,
            _ => NO_BUFFER.into(),
        };
        for way in [delay_by_search, delay_by_halving] {
            let found = way(table, buffer, arrivals, 0).map_err(Refusal::number);
            assert_eq!(found, Err(if number == 6 { 7 } else { number }));
        }
    }
}
