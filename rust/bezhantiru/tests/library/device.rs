//! Document 02, 2.2: devices of leaky buckets beside the reference, on profiles, limits and lists of
//! calls drawn at random.

use bezhantiru::{Device, NO_BUFFER, NO_DELAY, Record};
use reference::bucket;
use reference::fill::Peaks;
use tests_program::cases::{for_each_drawn, for_each_numbered, said};
use tests_program::profile::{self, Drawn};

use crate::records::record;
use crate::refused_between::calls;

const CALL_LISTS: usize = 40_000;
/// The reference looks back to slot 0 in every slot, so that twice as many take it four times as
/// long.
const LIVE_SLOTS: u32 = 8_000;

fn set_up(drawn: &Drawn) -> Result<Device, String> {
    said(Device::set_up(&drawn.profile, drawn.delay, drawn.buffer))
}

fn reference_of(drawn: &Drawn) -> Result<bucket::Device, String> {
    let (delay, buffer) = (u64::from(drawn.delay), u64::from(drawn.buffer));
    said(bucket::Device::set_up(&drawn.buckets(), delay, buffer))
}

/// What a call shows: its record or number, the record's two fills, and the slots and the peaks
/// after it.
type Outcome = (Result<(Record, [u64; 2]), u32>, usize, Peaks);

fn by_library(live: &mut Device, arrivals: u64) -> Outcome {
    let answer = live
        .slot(arrivals)
        .map(|record| (record, [record.form_fill(), record.bench_fill()]))
        .map_err(|refusal| refusal.number());
    (answer, live.slots() as usize, peaks(live))
}

fn by_reference(device: &mut bucket::Device, arrivals: u64) -> Outcome {
    let answer = device
        .slot(arrivals)
        .map(|wanted| (record(&wanted), [wanted.form_fill(), wanted.bench_fill()]))
        .map_err(|refusal| refusal.number().into());
    (answer, device.totals().slots_taken(), device.peaks())
}

fn peaks(live: &Device) -> Peaks {
    Peaks {
        form: live.form_peak(),
        bench: live.bench_peak(),
    }
}

/// Every call of a list, and the totals after each; a refused one changes no number.
fn check_calls(drawn: &Drawn, calls: &[u64]) -> Result<(), String> {
    let mut live = set_up(drawn)?;
    let mut device = reference_of(drawn)?;
    if (live.slots(), peaks(&live)) != (0, Peaks::default()) {
        return Err(format!("fresh, yet {live:?}"));
    }
    for (place, &arrivals) in calls.iter().enumerate() {
        let before = live.clone();
        let found = by_library(&mut live, arrivals);
        let wanted = by_reference(&mut device, arrivals);
        let slots = device.totals().slots_taken();
        let totals = (live.state().admitted, live.state().departed);
        let wanted_totals = (
            device.totals().admitted[slots],
            device.totals().departed[slots],
        );
        let kept = found.0.is_ok() || live == before;
        if found != wanted || totals != wanted_totals || !kept {
            let calls = &calls[..=place];
            return Err(format!(
                "calls {calls:?}: found {found:?}, {totals:?}, wanted {wanted:?}, {wanted_totals:?}"
            ));
        }
    }
    check_bounds(drawn, peaks(&live))
}

/// No slot has more than q before its departures, so none ends with more.
fn check_bounds(drawn: &Drawn, peaks: Peaks) -> Result<(), String> {
    let most = u64::from(drawn.buffer);
    if drawn.buffer == NO_BUFFER || (peaks.form <= most && peaks.bench <= most) {
        Ok(())
    } else {
        Err(format!("{peaks:?} with q {most}"))
    }
}

/// The problem with the set-up that it arose under.
fn under(drawn: &Drawn, outcome: Result<(), String>) -> Result<(), String> {
    let (profile, delay, buffer) = (&drawn.profile, drawn.delay, drawn.buffer);
    outcome.map_err(|problem| format!("profile {profile:?}, d {delay}, q {buffer}, {problem}"))
}

#[test]
fn lists_of_calls() {
    for_each_drawn(CALL_LISTS, |dice| {
        let drawn = match dice.below(3) {
            0 => profile::competing(dice, 40),
            _ => profile::any(dice),
        };
        let calls = calls(&drawn.arrivals, dice);
        under(&drawn, check_calls(&drawn, &calls))
    });
}

#[test]
fn thousands_of_slots() {
    for_each_drawn(6, |dice| {
        let drawn = profile::device(dice, LIVE_SLOTS);
        under(&drawn, check_calls(&drawn, &drawn.arrivals))
    });
}

/// Every rate and burst out of 0, 1, 2, 999,999 and 1,000,000 in one bucket and in two.
#[test]
fn numbers_at_their_limits() {
    const NUMBERS: [u32; 5] = [0, 1, 2, 999_999, 1_000_000];
    const LIMITS: [(u32, u32); 6] = [
        (0, 0),
        (1, 1_000_000),
        (64, NO_BUFFER),
        (64, 1_000_000),
        (NO_DELAY, 1),
        (NO_DELAY, 1_000_000),
    ];
    let number = |code: usize, place: u32| NUMBERS[code / 5_usize.pow(place) % 5];
    let profiles = [2_u32, 4].into_iter().flat_map(|length| {
        let profile = move |code| (0..length).map(|place| number(code, place)).collect();
        (0..5_usize.pow(length)).map(profile)
    });
    let profiles: Vec<Vec<u32>> = profiles.collect();
    for_each_numbered(profiles.len() * LIMITS.len(), |number, dice| {
        let (delay, buffer) = LIMITS[number % LIMITS.len()];
        let drawn = Drawn {
            profile: profiles[number / LIMITS.len()].clone(),
            delay,
            buffer,
            arrivals: (0..12)
                .map(|_| dice.pick([0, 1, 2, 3, 999_999, 1_000_000]))
                .collect(),
        };
        under(&drawn, check_calls(&drawn, &drawn.arrivals))
    });
}

/// f(1) may be 2,000,000, above every entry of a table. No slot has as many packets, so all of them
/// depart at once, also where another bucket lets as many through.
#[test]
fn two_million_at_window_1() {
    let arrivals = [1_000_000, 0, 1_000_000, 1_000_000, 999_999];
    for buckets in 1..=4 {
        let profile = [1_000_000; 8];
        for (delay, buffer) in [(0, 1_000_000), (64, NO_BUFFER), (NO_DELAY, 1_000_000)] {
            let live = Device::set_up(&profile[..2 * buckets], delay, buffer);
            let mut live = live.expect("an accepted set-up");
            for count in arrivals {
                let all = Record {
                    held_before: 0,
                    admitted: count,
                    dropped: 0,
                    departed: count,
                };
                assert_eq!(live.slot(count), Ok(all));
            }
            let wanted = Peaks {
                form: 0,
                bench: 1_000_000,
            };
            assert_eq!(peaks(&live), wanted);
        }
    }
}

#[test]
fn a_clone_goes_on_by_itself() {
    let mut live = Device::set_up(&[4, 0, 1, 12], NO_DELAY, 4).expect("a set-up");
    live.slot(6).expect("an accepted slot");
    let mut other = Device::from_state(live.state().clone());
    assert_eq!(other, live);
    let records = [6, 6, 6].map(|count| live.slot(count));
    assert_eq!(other.slots(), 1);
    assert_eq!([6, 6, 6].map(|count| other.slot(count)), records);
    assert_eq!(other, live);
}

/// The request's device: the six-packet burst of document 01, whose table is what these buckets give
/// at windows 0 to 6.
#[test]
fn the_six_packet_burst() {
    let mut live = Device::set_up(&[4, 0, 1, 12], NO_DELAY, 4).expect("a set-up");
    let records = [6; 4].map(|count| live.slot(count).expect("an accepted slot"));
    let found = records.map(|record| {
        let held = record.form_fill();
        [record.admitted, record.dropped, record.departed, held]
    });
    assert_eq!(found, [[4, 2, 4, 0]; 4]);
    assert_eq!(peaks(&live), Peaks { form: 0, bench: 4 });
}
