//! Devices that no set-up or slot gave: a slot returns for every one of them, is refused by 8 and 9
//! alone, and raises the peaks by its own fills.

use std::array;

use bezhantiru::boundary::{self, Device, DeviceSettings};
use tests_program::dice::Dice;
use tests_program::profile;

use crate::forgery::{Fenced, accepted, check_all, check_peaks, feed, half, slots, word};

const FORGED: usize = 200_000;
const SLOTS: usize = 5;

/// Every number drawn from all that fit, but mostly few enough slots to take another.
fn noise(dice: &mut Dice) -> Device {
    let (few, any) = (dice.below(1_000_000), half(dice));
    Device {
        settings: DeviceSettings {
            buckets: half(dice),
            delay: half(dice),
            buffer: word(dice),
            rates: array::from_fn(|_| half(dice)),
            bursts: array::from_fn(|_| half(dice)),
        },
        slots: dice.pick([few, few, few, any]),
        admitted: word(dice),
        departed: word(dice),
        levels: array::from_fn(|_| word(dice)),
        form_peak: word(dice),
        bench_peak: word(dice),
    }
}

/// Every number at a limit or beside it.
fn edges(dice: &mut Dice) -> Device {
    Device {
        settings: DeviceSettings {
            buckets: buckets(dice),
            delay: delay(dice),
            buffer: total(dice),
            rates: array::from_fn(|_| packets(dice)),
            bursts: array::from_fn(|_| packets(dice)),
        },
        slots: slots(dice),
        admitted: total(dice),
        departed: total(dice),
        levels: array::from_fn(|_| total(dice)),
        form_peak: total(dice),
        bench_peak: total(dice),
    }
}

fn buckets(dice: &mut Dice) -> u32 {
    let (any, most) = (half(dice), u32::MAX);
    dice.pick([0, 1, 2, 3, 4, 5, 8, 255, 1 << 31, most, any])
}

fn delay(dice: &mut Dice) -> u32 {
    let (any, most) = (half(dice), u32::MAX);
    dice.pick([0, 1, 63, 64, 65, 254, 255, 256, most, any])
}

fn packets(dice: &mut Dice) -> u32 {
    let (any, most) = (half(dice), u32::MAX);
    dice.pick([0, 1, 999_999, 1_000_000, 1_000_001, most - 1, most, any])
}

fn total(dice: &mut Dice) -> u64 {
    let (any, most) = (word(dice), u64::MAX);
    let (full, none) = (1_000_000_000_000, u64::from(u32::MAX));
    let far = most - u64::from(dice.below(3_000_000));
    dice.pick([
        0,
        1,
        1_000_000,
        none,
        none + 1,
        full,
        1 << 63,
        far,
        most,
        any,
    ])
}

/// A device in use with one number replaced.
fn spoilt(dice: &mut Dice) -> Result<Device, String> {
    let slots_taken = dice.below(20);
    let drawn = profile::device(dice, slots_taken);
    let mut device = boundary::device_set_up(&drawn.profile, drawn.delay, drawn.buffer).device;
    for arrivals in drawn.arrivals {
        accepted(boundary::device_slot(&mut device, arrivals))?;
    }
    match dice.below(10) {
        0 => device.settings.buckets = buckets(dice),
        1 => device.settings.delay = delay(dice),
        2 => device.settings.buffer = total(dice),
        3 => device.settings.rates[dice.place(4)] = packets(dice),
        4 => device.settings.bursts[dice.place(4)] = packets(dice),
        5 => device.slots = slots(dice),
        6 => device.admitted = total(dice),
        7 => device.departed = total(dice),
        8 => device.levels[dice.place(4)] = total(dice),
        _ => (device.form_peak, device.bench_peak) = (total(dice), total(dice)),
    }
    Ok(device)
}

/// 8, then 9, whoever made the device.
fn wanted_number(slots: u32, arrivals: u64) -> u32 {
    if arrivals > 1_000_000 {
        8
    } else if slots >= 1_000_000 {
        9
    } else {
        0
    }
}

/// Whether the call was accepted. A refused call changes no number and answers none; an accepted one
/// counts the slot, keeps the settings, and the peaks go with the record. The rest of the answer is
/// free.
fn check_slot(fenced: &mut Fenced<Device>, arrivals: u64) -> Result<bool, String> {
    let before = fenced.lent.clone();
    let row = boundary::device_slot(&mut fenced.lent, arrivals);
    let after = &fenced.lent;
    let problem = |what: &str| format!("{arrivals} arrivals, {before:?}: {row:?}, {what}");
    if row.number != wanted_number(before.slots, arrivals) {
        return Err(problem("another number"));
    }
    let counts = [row.held_before, row.admitted, row.dropped, row.departed];
    if row.number != 0 && (*after != before || counts != [0; 4]) {
        return Err(problem("refused, yet something changed"));
    }
    if row.number == 0 {
        if (after.slots, &after.settings) != (before.slots + 1, &before.settings) {
            return Err(problem("another slot or set-up"));
        }
        let peaks = |of: &Device| [of.form_peak, of.bench_peak];
        check_peaks(peaks(&before), &row, peaks(after)).map_err(|what| problem(&what))?;
    }
    if !fenced.is_whole() {
        return Err(problem("written beside the device"));
    }
    Ok(row.number == 0)
}

/// How many of the slots were accepted.
fn check_forged(number: usize, dice: &mut Dice) -> Result<usize, String> {
    let device = match number % 3 {
        0 => noise(dice),
        1 => edges(dice),
        _ => spoilt(dice)?,
    };
    feed(device, SLOTS, dice, check_slot)
}

#[test]
fn every_slot_of_a_forged_device_returns() {
    check_all(FORGED, check_forged);
}
