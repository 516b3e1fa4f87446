//! Regulators that no set-up or slot gave: a slot returns for every one of them, whole or over its
//! parts, with the same outcome, raises the peaks by its own fills, and gives what a preview said.

use std::array;

use bezhantiru::boundary::{self, Regulator, Settings};
use tests_program::dice::Dice;

use crate::ahead;
use crate::forgery::{Fenced, accepted, check_all, check_peaks, feed, half, slots, word};
use crate::twin;

const FORGED: usize = 100_000;
const SLOTS: usize = 4;

/// Every number drawn from all that fit, but mostly few enough slots to take another.
fn noise(dice: &mut Dice) -> Regulator {
    let (few, any) = (dice.below(1_000_000), half(dice));
    Regulator {
        settings: Settings {
            last: half(dice),
            delay: half(dice),
            buffer: word(dice),
            near_windows: array::from_fn(|_| half(dice)),
        },
        slots: dice.pick([few, few, few, any]),
        admitted: word(dice),
        form_peak: word(dice),
        bench_peak: word(dice),
        row: array::from_fn(|_| word(dice)),
    }
}

/// Every number at, near or far beyond what a regulator can have.
fn edges(dice: &mut Dice) -> Regulator {
    let most = dice.pick([u32::MAX, 1_000_001, 2]);
    Regulator {
        settings: Settings {
            last: last(dice),
            delay: delay(dice),
            buffer: buffer(dice),
            near_windows: array::from_fn(|_| half(dice) % most),
        },
        slots: slots(dice),
        admitted: total(dice),
        form_peak: total(dice),
        bench_peak: total(dice),
        row: array::from_fn(|_| total(dice)),
    }
}

fn last(dice: &mut Dice) -> u32 {
    let (any, most) = (half(dice), u32::MAX);
    dice.pick([0, 1, 2, 63, 64, 65, 127, 128, 129, 191, 192, 193, most, any])
}

fn delay(dice: &mut Dice) -> u32 {
    let (any, most) = (half(dice), u32::MAX);
    dice.pick([0, 1, 63, 64, 65, 128, 129, 192, 254, 255, 256, most, any])
}

fn buffer(dice: &mut Dice) -> u64 {
    let (any, most) = (word(dice), u64::MAX);
    let none = u64::from(u32::MAX);
    dice.pick([
        0,
        1,
        1_000_000,
        1_000_001,
        none,
        none + 1,
        most - 1,
        most,
        any,
    ])
}

fn total(dice: &mut Dice) -> u64 {
    let (any, most) = (word(dice), u64::MAX);
    let full = 1_000_000_000_000;
    dice.pick([
        0,
        1,
        1_000_000,
        full,
        full + 1,
        1 << 63,
        most - 1,
        most,
        any,
    ])
}

/// A regulator in use with one number replaced.
fn spoilt(dice: &mut Dice) -> Result<Regulator, String> {
    let delay_limit = dice.pick([0, 8, 64, 255]);
    let made = boundary::set_up(&[0, 4, 8, 12, 16, 17, 18], delay_limit, 40);
    let mut regulator = made.regulator;
    for _ in 0..dice.below(20) {
        let row = twin::slot(&mut regulator, u64::from(dice.below(12)))?;
        accepted(row)?;
    }
    match dice.below(9) {
        0 => regulator.settings.last = last(dice),
        1 => regulator.settings.delay = delay(dice),
        2 => regulator.settings.buffer = buffer(dice),
        3 => regulator.settings.near_windows[dice.place(129)] = half(dice),
        4 => regulator.slots = slots(dice),
        5 => regulator.admitted = total(dice),
        6 => regulator.form_peak = total(dice),
        7 => regulator.bench_peak = total(dice),
        _ => regulator.row[dice.place(192)] = total(dice),
    }
    Ok(regulator)
}

/// Whether the call was accepted. The number of arrivals is refused whoever made the regulator, a
/// refused call changes nothing, and the peaks go with the record; the rest of the answer is free.
fn check_slot(fenced: &mut Fenced<Regulator>, arrivals: u64) -> Result<bool, String> {
    let before = fenced.lent.clone();
    let seen = ahead::preview(&fenced.lent, arrivals)?;
    let row = twin::slot(&mut fenced.lent, arrivals)?;
    let again = &mut Fenced::new(before.clone());
    boundary::slot(&mut again.lent, arrivals);
    let problem = |what: &str| format!("{arrivals} arrivals, {before:?}: {row:?}, {what}");
    if (seen.number, seen.admitted) != (row.number, row.admitted) {
        return Err(problem(&format!("though {seen:?}")));
    }
    if (row.number == 8) != (arrivals > 1_000_000) {
        return Err(problem("another number"));
    }
    if row.number != 0 && fenced.lent != before {
        return Err(problem("refused, yet it changed"));
    }
    if row.number == 0 {
        let peaks = |of: &Regulator| [of.form_peak, of.bench_peak];
        check_peaks(peaks(&before), &row, peaks(&fenced.lent)).map_err(|what| problem(&what))?;
    }
    if !fenced.is_whole() || !again.is_whole() {
        return Err(problem("written beside the regulator"));
    }
    Ok(row.number == 0)
}

/// How many of the slots were accepted.
fn check_forged(number: usize, dice: &mut Dice) -> Result<usize, String> {
    let regulator = match number % 3 {
        0 => noise(dice),
        1 => edges(dice),
        _ => spoilt(dice)?,
    };
    feed(regulator, SLOTS, dice, check_slot)
}

#[test]
fn every_slot_of_a_forged_regulator_returns() {
    check_all(FORGED, check_forged);
}
