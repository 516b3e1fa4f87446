//! A million slots of a device at full load, with refused calls in between.

use bezhantiru::{Device, NO_BUFFER, NO_DELAY, Record, Refusal};

/// The most slots, and the most arrivals in each.
const MOST: u64 = 1_000_000;

/// Calls that are refused before the last slot is taken: some of their low 32 bits would pass.
const REFUSED: [u64; 4] = [1_000_001, (1 << 32) + 5, 1 << 63, u64::MAX];

/// Refused calls change no number of the device.
fn check_refused(live: &mut Device, calls: &[u64], refusal: Refusal) {
    let before = live.clone();
    for &arrivals in calls {
        assert_eq!(live.slot(arrivals), Err(refusal));
    }
    assert!(*live == before, "{refusal}: the device changed");
}

/// f at a window from 1 on.
fn envelope(profile: &[[u32; 2]], window: u64) -> u64 {
    let line = |&[rate, burst]: &[u32; 2]| u64::from(rate) * window + u64::from(burst);
    profile.iter().map(line).min().expect("a bucket")
}

/// X(t) and Y(t), from those of the slot before. No rate is above the arrivals of a slot, so of the
/// envelope's bounds those from slot 0 on are the lowest: X(t-1) and all that arrives, f(t+d) and
/// Y(t-1) + q for X, and X(t) and f(t) for Y.
fn totals(
    profile: &[[u32; 2]],
    delay: u32,
    buffer: u32,
    slot: u64,
    before: (u64, u64),
) -> (u64, u64) {
    let mut admitted = before.0 + MOST;
    if delay != NO_DELAY {
        admitted = admitted.min(envelope(profile, slot + u64::from(delay)));
    }
    if buffer != NO_BUFFER {
        admitted = admitted.min(before.1 + u64::from(buffer));
    }
    (admitted, admitted.min(envelope(profile, slot)))
}

fn check(profile: &[[u32; 2]], delay: u32, buffer: u32) {
    let live = Device::set_up(profile.as_flattened(), delay, buffer);
    let mut live = live.expect("an accepted set-up");
    let (mut before, mut peaks) = ((0, 0), (0, 0));
    for slot in 1..=MOST {
        let refused = REFUSED[slot as usize % REFUSED.len()];
        check_refused(&mut live, &[refused], Refusal::TooManyArrivals);
        let after = totals(profile, delay, buffer, slot, before);
        let admitted = after.0 - before.0;
        let wanted = Record {
            held_before: before.0 - before.1,
            admitted,
            dropped: MOST - admitted,
            departed: after.1 - before.1,
        };
        assert_eq!(live.slot(MOST), Ok(wanted), "slot {slot}");
        peaks = (
            peaks.0.max(after.0 - after.1),
            peaks.1.max(after.0 - before.1),
        );
        let found = (live.form_peak(), live.bench_peak());
        assert_eq!(found, peaks, "slot {slot}");
        before = after;
    }
    check_refused(&mut live, &REFUSED, Refusal::TooManyArrivals);
    check_refused(&mut live, &[0, 1, MOST], Refusal::SlotsUsedUp);
    assert_eq!(u64::from(live.slots()), MOST);
    let found = (live.state().admitted, live.state().departed);
    assert_eq!(found, before);
}

#[test]
fn all_depart_at_once() {
    check(&[[1_000_000, 0]], NO_DELAY, 1_000_000);
    check(&[[1_000_000, 1_000_000]; 4], 64, 1_000_000);
}

#[test]
fn none_departs() {
    check(&[[0, 0]], NO_DELAY, 999_999);
    check(&[[1_000_000, 1_000_000], [0, 0]], NO_DELAY, 1_000_000);
}

#[test]
fn one_burst_departs() {
    check(&[[0, 1_000_000]], NO_DELAY, 1_000_000);
    check(&[[0, 1_000_000]], 64, 0);
}

#[test]
fn a_steady_rate_departs() {
    check(&[[1, 0]], NO_DELAY, 1_000_000);
    check(&[[999_999, 1]], NO_DELAY, 1_000_000);
    check(&[[999_999, 1_000_000]], 64, NO_BUFFER);
}

/// Each bucket is the lowest for a while, the last one from window 100,000 on.
#[test]
fn four_buckets_in_turn() {
    let profile = [[900_000, 0], [3_000, 500_000], [2, 900_000], [1, 1_000_000]];
    check(&profile, NO_DELAY, 1_000_000);
    check(&profile, 64, 1_000_000);
    check(&profile, 3, NO_BUFFER);
    check(&profile, NO_DELAY, 7);
}
