//! Document 02, 2.2: every refusal of a device, at every limit and one beyond, every pair of them
//! that can meet, and what a refused call leaves.

use bezhantiru::boundary::{self, SlotRow};
use bezhantiru::{Device, NO_BUFFER, NO_DELAY, Refusal};
use tests_program::cases::{for_each_drawn, same};

use crate::judged::{BUFFERS, DELAYS, both, first};

const DRAWN: usize = 40_000;

fn number<T>(outcome: Result<T, Refusal>) -> u32 {
    outcome.err().map_or(0, Refusal::number)
}

/// Profiles with their numbers, 0 where accepted; those of 15 with too large numbers and without.
fn profiles() -> Vec<(Vec<u32>, u32)> {
    let mut profiles = Vec::new();
    for length in [0, 1, 3, 5, 7, 9, 10, 11, 16, 64, 65, 10_000] {
        profiles.push((vec![1; length], 15));
        profiles.push((vec![1_000_001; length], 15));
        profiles.push((vec![u32::MAX; length], 15));
    }
    for length in [2, 4, 6, 8] {
        profiles.push((vec![0; length], 0));
        profiles.push((vec![1; length], 0));
        profiles.push((vec![1_000_000; length], 0));
        for place in 0..length {
            for large in [1_000_001, u32::MAX - 1, u32::MAX] {
                let mut profile = vec![1_000_000; length];
                profile[place] = large;
                profiles.push((profile, 16));
            }
        }
        profiles.push((vec![1_000_001; length], 16));
    }
    profiles
}

/// 15, 16, 6, 7, 23, whichever of them meet.
#[test]
fn set_ups_in_their_order() {
    let mut seen = [0; 24];
    for (profile, by_profile) in profiles() {
        for (delay, by_delay) in DELAYS {
            for (buffer, by_buffer) in BUFFERS {
                let wanted = first([by_profile, by_delay, by_buffer, both(delay, buffer)]);
                let found = number(Device::set_up(&profile, delay, buffer));
                assert_eq!(found, wanted, "{profile:?}, d {delay}, q {buffer}");
                seen[wanted as usize] += 1;
            }
        }
    }
    for number in [0, 6, 7, 15, 16, 23] {
        assert!(seen[number] > 0, "{seen:?}");
    }
}

/// The reference's number; the reference takes pairs, so an odd length is judged here.
fn by_reference(profile: &[u32], delay: u32, buffer: u32) -> u32 {
    let pairs = profile.chunks_exact(2);
    if !pairs.remainder().is_empty() {
        return 15;
    }
    let buckets: Vec<(u64, u64)> = pairs
        .map(|pair| (u64::from(pair[0]), u64::from(pair[1])))
        .collect();
    let (delay, buffer) = (u64::from(delay), u64::from(buffer));
    let outcome = reference::refusal::bucket_set_up(&buckets, delay, buffer);
    outcome.map_or_else(|refusal| refusal.number().into(), |()| 0)
}

#[test]
fn drawn_set_ups() {
    for_each_drawn(DRAWN, |dice| {
        let length = dice.pick([0, 1, 2, 2, 3, 4, 4, 5, 6, 6, 7, 8, 8, 9, 10, 12]);
        let most = dice.pick([2, 1_000_001, 1_000_003, u32::MAX]);
        let profile: Vec<u32> = (0..length).map(|_| dice.below(most)).collect();
        let (delay, _) = dice.pick(DELAYS);
        let (buffer, _) = dice.pick(BUFFERS);
        let found = number(Device::set_up(&profile, delay, buffer));
        let wanted = by_reference(&profile, delay, buffer);
        same(
            &format!("{profile:?}, d {delay}, q {buffer}"),
            found,
            wanted,
        )
    });
}

/// The profile is only read, wherever it lies, and nothing beside it.
#[test]
fn a_profile_is_as_long_as_it_says() {
    let memory = [u32::MAX, 4, 0, 1, 12, u32::MAX];
    let inner = Device::set_up(&memory[1..5], NO_DELAY, 4);
    assert_eq!(inner, Device::set_up(&[4, 0, 1, 12], NO_DELAY, 4));
    assert_eq!(number(Device::set_up(&memory[1..1], 0, 0)), 15);
}

const LARGE: [u64; 6] = [
    1_000_001,
    1_000_002,
    1 << 32,
    (1 << 32) + 5,
    1 << 63,
    u64::MAX,
];
const FITTING: [u64; 3] = [0, 1, 1_000_000];

/// A refused slot: its number, no counts, and every number of the device as it was.
fn check_refused(device: &mut boundary::Device, arrivals: u64, number: u32) {
    let before = device.clone();
    let wanted = SlotRow {
        number,
        held_before: 0,
        admitted: 0,
        dropped: 0,
        departed: 0,
    };
    assert_eq!(boundary::device_slot(device, arrivals), wanted);
    assert_eq!(*device, before);
}

#[test]
fn slots_in_their_order() {
    let live = Device::set_up(&[4, 0, 1, 12], 3, 9).expect("an accepted set-up");
    let mut device = live.state().clone();
    for arrivals in LARGE {
        check_refused(&mut device, arrivals, 8);
        let row = boundary::device_slot(&mut device, 6);
        assert_eq!(row.number, 0);
    }
    device.slots = 999_999;
    assert_eq!(boundary::device_slot(&mut device, 1_000_000).number, 0);
    assert_eq!(device.slots, 1_000_000);
    for slots in [1_000_000, 1_000_001, u32::MAX] {
        device.slots = slots;
        for arrivals in LARGE {
            check_refused(&mut device, arrivals, 8);
        }
        for arrivals in FITTING {
            check_refused(&mut device, arrivals, 9);
        }
    }
}

#[test]
fn the_device_of_a_refused_set_up_takes_no_slot() {
    for (profile, delay, buffer, wanted) in [
        (&[][..], 1, 9, 15),
        (&[4], 1, 9, 15),
        (&[4, 0, 1], 1, 9, 15),
        (&[1; 10], 1, 9, 15),
        (&[4, 1_000_001], 1, 9, 16),
        (&[4, 0], 65, 9, 6),
        (&[4, 0], 1, 1_000_001, 7),
    ] {
        let mut made = boundary::device_set_up(profile, delay, buffer);
        assert_eq!(made.number, wanted);
        assert_eq!(made.device.slots, 1_000_000);
        for arrivals in LARGE {
            check_refused(&mut made.device, arrivals, 8);
        }
        for arrivals in FITTING {
            check_refused(&mut made.device, arrivals, 9);
        }
    }
}

/// The settings of an accepted set-up, 0 past the last bucket, and totals of 0.
#[test]
fn a_fresh_device() {
    let profile = [7, 1, 5, 20, 3, 300, 1, 4_000];
    for buckets in 1..=4 {
        let made = boundary::device_set_up(&profile[..2 * buckets], 64, 1_000_000);
        let device = made.device;
        assert_eq!(made.number, 0);
        assert_eq!(device.settings.buckets as usize, buckets);
        assert_eq!(
            (device.settings.delay, device.settings.buffer),
            (64, 1_000_000)
        );
        for place in 0..4 {
            let used = |number: u32| if place < buckets { number } else { 0 };
            assert_eq!(device.settings.rates[place], used(profile[2 * place]));
            assert_eq!(device.settings.bursts[place], used(profile[2 * place + 1]));
        }
        let totals = [device.admitted, device.departed];
        let peaks = [device.form_peak, device.bench_peak];
        assert_eq!((device.slots, totals, peaks), (0, [0; 2], [0; 2]));
    }
    for (delay, buffer) in [(NO_DELAY, 9), (1, NO_BUFFER)] {
        let none = boundary::device_set_up(&[1, 2], delay, buffer)
            .device
            .settings;
        assert_eq!((none.delay, none.buffer), (delay, u64::from(buffer)));
    }
}
