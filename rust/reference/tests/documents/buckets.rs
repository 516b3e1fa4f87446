//! Document 02, 2.2 and 2.6: devices of leaky buckets by hand, and on every tiny trace.

use reference::bucket::{Bucket, Device, envelope, losses, rows};
use reference::fill::Peaks;
use reference::layout::{NO_BUFFER, NO_DELAY};
use reference::permitted::{Pair, Terms, premise};
use reference::refusal::Refusal;
use reference::regulator::{Count, Limits, Regulator, Row, Totals, clip};
use reference::tiny::traces;

const NO_DELAY_LIMIT: u64 = NO_DELAY as u64;
const NO_BUFFER_LIMIT: u64 = NO_BUFFER as u64;
const PROFILES: [&[Bucket]; 6] = [
    &[(1, 0)],
    &[(0, 2)],
    &[(2, 0), (1, 1)],
    &[(3, 0), (1, 2), (0, 4)],
    &[(0, 0), (5, 5)],
    &[(2, 1), (1, 1), (0, 3), (2, 0)],
];
const DELAYS: [u64; 4] = [0, 1, 2, NO_DELAY_LIMIT];
const BUFFERS: [u64; 4] = [0, 1, 3, NO_BUFFER_LIMIT];

/// Every profile under every pair of limits that are not both none.
fn set_ups() -> impl Iterator<Item = (&'static [Bucket], u64, u64)> {
    let under = |profile| {
        let limits = DELAYS.into_iter().flat_map(|d| BUFFERS.map(|q| (d, q)));
        let limits = limits.filter(|limits| *limits != (NO_DELAY_LIMIT, NO_BUFFER_LIMIT));
        limits.map(move |(delay, buffer)| (profile, delay, buffer))
    };
    PROFILES.into_iter().flat_map(under)
}

#[test]
fn the_least_of_lines() {
    let at = |profile: &[Bucket]| [0, 1, 2, 3, 4, 5].map(|window| envelope(profile, window));
    assert_eq!(at(&[(4, 0), (1, 12)]), [0, 4, 8, 12, 16, 17]);
    assert_eq!(at(&[(0, 0)]), [0; 6]);
    assert_eq!(at(&[(0, 7)]), [0, 7, 7, 7, 7, 7]);
    assert_eq!(at(&[(1_000_000, 1_000_000)])[1], 2_000_000);
}

#[test]
fn the_envelope_is_closed() {
    for profile in PROFILES {
        let f = |window| envelope(profile, window);
        for (i, j) in (0..20).flat_map(|i| (0..20).map(move |j| (i, j))) {
            assert!(f(i) + f(j) >= f(i + j), "{profile:?} {i} {j}");
        }
    }
}

/// Document 000's clipper by the count of 2.9: each burst enlarged by rate × d, and f(k-1) + q beside
/// it.
#[test]
fn the_clipper_has_its_bursts_enlarged() {
    for (profile, delay, buffer) in set_ups() {
        let limits = Limits::from_numbers(delay, buffer).expect("accepted limits");
        let f: Vec<u64> = (0..12).map(|window| envelope(profile, window)).collect();
        let enlarged = |&(rate, burst): &Bucket| {
            let by_delay = limits.delay.map(|delay| rate * delay as u64)?;
            Some((rate, burst + by_delay))
        };
        let clipper: Option<Vec<Bucket>> = profile.iter().map(enlarged).collect();
        for window in 1..10 {
            let by_delay = clipper.as_ref().map(|clipper| envelope(clipper, window));
            let by_buffer = limits.buffer.map(|buffer| f[window - 1] + buffer);
            assert_eq!(
                clip(&f, limits, window),
                by_delay.into_iter().chain(by_buffer).min(),
                "{profile:?} {delay} {buffer}"
            );
        }
    }
}

/// The six-packet burst of document 01: its table is what these buckets give at windows 0 to 6.
#[test]
fn the_six_packet_burst() {
    let rows = rows(&[(4, 0), (1, 12)], NO_DELAY_LIMIT, 4, &[6; 4]).expect("accepted slots");
    let column = |field: fn(&Row) -> u64| rows.iter().map(field).collect::<Vec<u64>>();
    assert_eq!(column(|row| row.admitted), [4, 4, 4, 4]);
    assert_eq!(column(|row| row.dropped), [2, 2, 2, 2]);
    assert_eq!(column(|row| row.departed), [4, 4, 4, 4]);
    assert_eq!(column(|row| row.held), [0, 0, 0, 0]);
}

/// On a trace that is not longer than the table less the delay limit, no window is seen that the
/// table does not have.
#[test]
fn a_table_of_the_buckets_gives_the_same_rows() {
    for (profile, delay, buffer) in set_ups() {
        let table: Vec<u64> = (0..=8).map(|window| envelope(profile, window)).collect();
        for arrivals in traces(4).step_by(3) {
            let mut regulator = Regulator::set_up(&table, delay, buffer).expect("a set-up");
            let wanted: Result<Vec<Row>, _> = arrivals
                .iter()
                .map(|&count| regulator.slot(count))
                .collect();
            assert_eq!(rows(profile, delay, buffer, &arrivals), wanted);
        }
    }
}

/// A packet a slot with no burst, far beyond any table.
#[test]
fn windows_have_no_end() {
    let rows = rows(&[(1, 0), (0, 300)], NO_DELAY_LIMIT, 2, &[1; 400]).expect("accepted");
    let departed: u64 = rows.iter().map(|row| row.departed).sum();
    let admitted: u64 = rows.iter().map(|row| row.admitted).sum();
    assert_eq!((departed, admitted), (300, 302));
}

#[test]
fn records_and_peaks() {
    let mut device = Device::set_up(&[(4, 0), (1, 12)], NO_DELAY_LIMIT, 4).expect("a set-up");
    assert_eq!(device.peaks(), Peaks { form: 0, bench: 0 });
    let records = [6; 4].map(|count| device.slot(count).expect("an accepted slot"));
    assert_eq!(records.map(|record| record.held_before), [0, 0, 0, 0]);
    assert_eq!(device.peaks(), Peaks { form: 0, bench: 4 });
    let before = device.clone();
    assert_eq!(device.slot(1_000_001), Err(Refusal::TooManyArrivals));
    assert_eq!(device, before);
}

#[test]
fn nothing_permitted_loses_less() {
    let mut held_by_premise = 0;
    for (profile, delay, buffer) in set_ups() {
        for mut arrivals in (0..=3).flat_map(traces) {
            if delay != NO_DELAY_LIMIT {
                arrivals.resize(arrivals.len() + delay as usize, 0);
            }
            let mut device = Device::set_up(profile, delay, buffer).expect("a set-up");
            for &count in &arrivals {
                device.slot(count).expect("an accepted slot");
            }
            let limits = Limits::from_numbers(delay, buffer).expect("accepted limits");
            assert!(premise(limits, &arrivals));
            let f: Vec<u64> = (0..=arrivals.len()).map(|w| envelope(profile, w)).collect();
            let Totals {
                arrived,
                admitted,
                departed,
            } = device.totals().clone();
            let terms = Terms {
                f: &f,
                limits,
                arrived: &arrived,
            };
            let pair = Pair { admitted, departed };
            assert!(terms.permit(&pair));
            assert_eq!(
                terms.greatest(),
                pair,
                "{profile:?} {delay} {buffer} {arrivals:?}"
            );
            held_by_premise += 1;
        }
    }
    assert!(held_by_premise > 5_000);
}

#[test]
fn refusals_in_their_order() {
    let number = |profile: &[Bucket], delay, buffer| {
        let refused = Device::set_up(profile, delay, buffer).err();
        refused.map_or(0, Refusal::number)
    };
    let large = 1_000_001;
    assert_eq!(number(&[], 65, large), 15);
    assert_eq!(number(&[(large, 0); 5], 65, large), 15);
    assert_eq!(number(&[(1, 1); 5], 0, 0), 15);
    assert_eq!(number(&[(1, 1); 4], 0, 0), 0);
    assert_eq!(number(&[(large, 0)], 65, large), 16);
    assert_eq!(number(&[(0, large)], 65, large), 16);
    assert_eq!(number(&[(0, 0), (1, 2), (3, large)], 65, large), 16);
    assert_eq!(number(&[(0, 0)], 65, large), 6);
    assert_eq!(number(&[(0, 0)], 64, large), 7);
    assert_eq!(number(&[(1_000_000, 1_000_000)], 64, 1_000_000), 0);
}

/// The sample of 2.6 is one of the count after departures: 4, 4 and 4; by that of 2.9 the same
/// buckets lose 8, 8 and 8.
#[test]
fn the_request_s_losses_by_both_counts() {
    let profile = [(4, 0), (1, 12)];
    let limits = Limits::from_numbers(NO_DELAY_LIMIT, 4).expect("accepted limits");
    let after = limits.counted(Count::AfterDepartures);
    let lost = |buckets: &[Bucket]| {
        let f: Vec<u64> = (0..=4).map(|window| envelope(buckets, window)).collect();
        let totals = Totals::over(&f, after, &[6; 4]);
        [1, 2, 3, 4].map(|slot| totals.arrived[slot] - totals.admitted[slot])
    };
    assert_eq!(lost(&profile), [0, 0, 2, 4]);
    assert_eq!(
        profile.map(|bucket| lost(&[bucket])),
        [[0, 0, 2, 4], [0, 0, 0, 4]]
    );

    let losses = losses(&profile, NO_DELAY_LIMIT, 4, &[6; 4]).expect("accepted slots");
    assert_eq!(losses.device, [2, 4, 6, 8]);
    assert_eq!(losses.single, [[2, 4, 6, 8], [2, 4, 6, 8]]);
    assert!(losses.keep_the_bound());
}

/// The greatest of the single losses would be no bound from above.
#[test]
fn the_device_may_lose_more_than_each_single_one() {
    let arrivals = [4, 4, 0, 0, 4, 4, 4, 3];
    let losses = losses(&[(3, 0), (2, 2)], NO_DELAY_LIMIT, 4, &arrivals);
    let losses = losses.expect("accepted slots");
    let last = |losses: &Vec<u64>| losses.last().copied();
    assert_eq!(last(&losses.device), Some(4));
    assert!(losses.single.iter().all(|one| last(one) == Some(3)));
}

#[test]
fn the_bound_on_every_tiny_trace() {
    let mut between = 0;
    for (profile, delay, buffer) in set_ups() {
        for arrivals in (0..=4).flat_map(traces) {
            let losses = losses(profile, delay, buffer, &arrivals).expect("accepted slots");
            assert!(
                losses.keep_the_bound(),
                "{profile:?} {arrivals:?}: {losses:?}"
            );
            let last = |losses: &Vec<u64>| losses.last().copied().unwrap_or(0);
            let sum: u64 = losses.single.iter().map(last).sum();
            between += usize::from(last(&losses.device) < sum);
        }
    }
    assert!(between > 1_000, "{between}");
}
