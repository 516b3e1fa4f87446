//! A million slots at full load with a buffer limit alone, with refused calls in between.

use bezhantiru::{NO_DELAY, Record, Refusal, Regulator};

/// The most slots, and the most arrivals in each.
const MOST: u64 = 1_000_000;

/// Calls that are refused before the last slot is taken: some of their low 32 bits would pass.
const REFUSED: [u64; 4] = [1_000_001, (1 << 32) + 5, 1 << 63, u64::MAX];

/// Refused calls change no number of the regulator.
fn check_refused(live: &mut Regulator, calls: &[u64], refusal: Refusal) {
    let before = live.clone();
    for &arrivals in calls {
        assert_eq!(live.slot(arrivals), Err(refusal));
    }
    assert!(*live == before, "{refusal}: the regulator changed");
}

/// Feeds all slots; `departed` is Y(t), worked out by hand. With a buffer limit of as many packets as
/// arrive in a slot, X(t) is Y(t-1) and as many more.
fn check(table: &[u32], departed: impl Fn(u64) -> u64) {
    let mut live = Regulator::set_up(table, NO_DELAY, 1_000_000).expect("an accepted set-up");
    let admitted = |slot: u64| {
        slot.checked_sub(1)
            .map_or(0, |before| departed(before) + MOST)
    };
    let mut peaks = (0, 0);
    for slot in 1..=MOST {
        let refused = REFUSED[slot as usize % REFUSED.len()];
        check_refused(&mut live, &[refused], Refusal::TooManyArrivals);
        let (before, after) = (departed(slot - 1), departed(slot));
        let (already, total) = (admitted(slot - 1), admitted(slot));
        let wanted = Record {
            held_before: already - before,
            admitted: total - already,
            dropped: MOST - (total - already),
            departed: after - before,
        };
        let fills = (total - after, total - before);
        peaks = (peaks.0.max(fills.0), peaks.1.max(fills.1));
        assert_eq!(live.slot(MOST), Ok(wanted), "slot {slot}");
        let found = (wanted.form_fill(), wanted.bench_fill());
        assert_eq!(found, fills, "slot {slot}");
        let found = (live.form_peak(), live.bench_peak());
        assert_eq!(found, peaks, "slot {slot}");
    }
    check_refused(&mut live, &REFUSED, Refusal::TooManyArrivals);
    check_refused(&mut live, &[0, 1, MOST], Refusal::SlotsUsedUp);
    assert_eq!(u64::from(live.state().slots), MOST);
    assert_eq!(live.state().admitted, admitted(MOST));
}

#[test]
fn all_depart_at_once() {
    check(&[0, 1_000_000], |slot| slot * MOST);
}

#[test]
fn none_departs() {
    check(&[0; 65], |_| 0);
}

#[test]
fn one_departs_in_each_slot() {
    check(&[0, 1], |slot| slot);
}

/// A million in any 64 slots, so a million in slots 1, 65, 129, ..
#[test]
fn a_full_slot_departs_in_each_window() {
    let mut table = [1_000_000; 65];
    table[0] = 0;
    check(&table, |slot| slot.div_ceil(64) * MOST);
}

/// Every entry holds in every window, up to 64 × 15,625 = 1,000,000.
#[test]
fn a_steady_rate_departs() {
    let table: Vec<u32> = (0..=64).map(|window| window * 15_625).collect();
    check(&table, |slot| slot * 15_625);
}
