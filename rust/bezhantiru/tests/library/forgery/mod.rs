//! What regulators and devices that no set-up or slot gave are made of, and how they are tried: between
//! fences, within a time, with peaks that go with the record.

use std::array;
use std::hint::black_box;
use std::sync::atomic::{AtomicUsize, Ordering};
use std::sync::mpsc;
use std::thread;
use std::time::Duration;

use bezhantiru::boundary::SlotRow;
use tests_program::compare::for_each;
use tests_program::dice::{Dice, seed};

use crate::exact;

/// Far longer than the calls take; what is still running then runs endlessly.
const PATIENCE: Duration = Duration::from_secs(50);
const FENCE: [u64; 64] = [0xA5A5_A5A5_A5A5_A5A5; 64];

/// Any number of 64 bits.
pub fn word(dice: &mut Dice) -> u64 {
    u64::from_le_bytes(array::from_fn(|_| dice.byte()))
}

/// Any number of 32 bits.
pub fn half(dice: &mut Dice) -> u32 {
    u32::from_le_bytes(array::from_fn(|_| dice.byte()))
}

pub fn slots(dice: &mut Dice) -> u32 {
    let (any, most) = (half(dice), u32::MAX);
    dice.pick([0, 1, 64, 999_998, 999_999, 1_000_000, 1_000_001, most, any])
}

fn arrivals(dice: &mut Dice) -> u64 {
    let (some, any) = (u64::from(dice.below(1_000_001)), word(dice));
    let most = u64::MAX;
    dice.pick([0, 1, some, some, 1_000_000, 1_000_001, 1 << 32, most, any])
}

/// A slot of a regulator or device that is still to be spoilt.
pub fn accepted(row: SlotRow) -> Result<(), String> {
    if row.number == 0 {
        Ok(())
    } else {
        Err(format!("refused {} before it was spoilt", row.number))
    }
}

/// What is lent, between numbers that are not.
#[repr(C)]
pub struct Fenced<T> {
    before: [u64; 64],
    pub lent: T,
    after: [u64; 64],
}

impl<T> Fenced<T> {
    pub fn new(lent: T) -> Fenced<T> {
        Fenced {
            before: FENCE,
            lent,
            after: FENCE,
        }
    }

    /// Whether nothing was written beside what is lent.
    pub fn is_whole(&self) -> bool {
        let seen = black_box(self);
        seen.before == FENCE && seen.after == FENCE
    }
}

/// The next peaks, the order form's and the bench's, are the greater of those before and the slot's
/// fills.
pub fn check_peaks(before: [u64; 2], row: &SlotRow, after: [u64; 2]) -> Result<(), String> {
    let form = exact::form_fill(row.held_before, row.admitted, row.departed);
    let bench = exact::bench_fill(row.held_before, row.admitted);
    let wanted = [before[0].max(form), before[1].max(bench)];
    if after == wanted {
        Ok(())
    } else {
        Err(format!(
            "{row:?} after peaks {before:?}: peaks {after:?}, wanted {wanted:?}"
        ))
    }
}

/// Feeds so many slots to a forged one, so that what a slot leaves behind is taken up too; ends with
/// how many of them the check found accepted.
pub fn feed<T>(
    forged: T,
    slots: usize,
    dice: &mut Dice,
    check: impl Fn(&mut Fenced<T>, u64) -> Result<bool, String>,
) -> Result<usize, String> {
    let mut fenced = Fenced::new(forged);
    let mut accepted = 0;
    for _ in 0..slots {
        accepted += usize::from(check(&mut fenced, arrivals(dice))?);
    }
    Ok(accepted)
}

/// Checks so many forged ones, each with dice of its own, and ends with how many of their slots were
/// accepted; a problem, or a check that takes too long, ends the test.
pub fn check_all(
    forged: usize,
    check: impl Fn(usize, &mut Dice) -> Result<usize, String> + Send + Sync + 'static,
) {
    let seed = seed().unwrap_or_else(|problem| panic!("{problem}"));
    println!("SEED={seed}");
    let done = in_time(move || {
        let accepted = AtomicUsize::new(0);
        for_each(forged, |number| {
            let dice = &mut Dice::new(seed, number as u64);
            accepted.fetch_add(check(number, dice)?, Ordering::Relaxed);
            Ok(())
        })?;
        enough(forged, accepted.into_inner())
    });
    done.unwrap_or_else(|problem| panic!("SEED={seed}, {problem}"));
}

/// Many slots have to be accepted, or little was tried.
fn enough(forged: usize, accepted: usize) -> Result<(), String> {
    println!("{accepted} slots accepted");
    if accepted >= forged {
        Ok(())
    } else {
        Err(format!("only {accepted} slots accepted"))
    }
}

/// The work's outcome, or a problem if it takes too long.
fn in_time(work: impl FnOnce() -> Result<(), String> + Send + 'static) -> Result<(), String> {
    let (sender, receiver) = mpsc::channel();
    thread::spawn(move || sender.send(work()));
    let outcome = receiver.recv_timeout(PATIENCE);
    outcome.unwrap_or_else(|problem| Err(format!("no outcome in {PATIENCE:?}: {problem}")))
}
