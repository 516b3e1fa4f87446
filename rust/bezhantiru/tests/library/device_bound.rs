//! Document 02, 2.6: after every slot a device has lost at least what each device of one of its
//! buckets has lost, and at most what all of them have.

use std::sync::atomic::{AtomicUsize, Ordering};

use bezhantiru::{NO_BUFFER, NO_DELAY};
use tests_program::cases::{for_each_drawn, said};
use tests_program::dice::Dice;
use tests_program::profile::{self, Drawn};

use crate::singles::{Losses, losses};

const TRACES: usize = 60_000;
const LONG_TRACES: usize = 60;
const LONG_SLOTS: u32 = 40_000;

/// Whether the device lost more than every single one and less than all of them.
fn check(drawn: &Drawn) -> Result<bool, String> {
    let losses = said(losses(drawn))?;
    for (index, losses) in losses.iter().enumerate() {
        if !losses.keep_the_bound() {
            let slot = index + 1;
            return Err(format!("{drawn:?}, slot {slot}: {losses:?}"));
        }
    }
    let between = |losses: &Losses| {
        let most = losses.single.iter().max();
        most.is_some_and(|&most| most < losses.device) && losses.device < losses.sum()
    };
    Ok(losses.last().is_some_and(between))
}

/// Every drawn device; how many of them lie between the bounds.
fn check_drawn(count: usize, draw: impl Fn(&mut Dice) -> Drawn + Sync) -> usize {
    let between = AtomicUsize::new(0);
    for_each_drawn(count, |dice| {
        between.fetch_add(usize::from(check(&draw(dice))?), Ordering::Relaxed);
        Ok(())
    });
    let between = between.into_inner();
    println!("{between} of {count} strictly between");
    between
}

#[test]
fn drawn_devices() {
    assert!(check_drawn(TRACES, profile::any) > 0);
}

/// Many have to lie between the bounds, or little was tried.
#[test]
fn drawn_devices_whose_buckets_compete() {
    let between = check_drawn(TRACES, |dice| profile::competing(dice, 40));
    assert!(between > TRACES / 20, "{between} of {TRACES}");
}

#[test]
fn long_traces() {
    check_drawn(LONG_TRACES, |dice| profile::device(dice, LONG_SLOTS));
    let between = check_drawn(LONG_TRACES, |dice| profile::competing(dice, LONG_SLOTS));
    assert!(between > LONG_TRACES / 4, "{between} of {LONG_TRACES}");
}

/// The losses after the last slot.
fn at_last(profile: &[u32], delay: u32, buffer: u32, arrivals: &[u64]) -> Losses {
    let drawn = Drawn {
        profile: profile.to_vec(),
        delay,
        buffer,
        arrivals: arrivals.to_vec(),
    };
    let losses = losses(&drawn).expect("an accepted trace");
    losses.last().expect("a slot").clone()
}

/// The request's device. Its numbers, 4 and 4, 4, are of the count before 2.9.
#[test]
fn the_sample() {
    let wanted = Losses {
        device: 8,
        single: vec![8, 8],
    };
    assert_eq!(at_last(&[4, 0, 1, 12], NO_DELAY, 4, &[6; 4]), wanted);
}

/// Neither the greatest of the single losses nor their sum.
#[test]
fn strictly_between() {
    let by_delay = at_last(&[2, 0, 1, 2], 0, NO_BUFFER, &[4, 0, 0, 2, 2, 2]);
    let wanted = Losses {
        device: 3,
        single: vec![2, 2],
    };
    assert_eq!(by_delay, wanted);
    let by_buffer = at_last(&[3, 0, 2, 2], NO_DELAY, 4, &[4, 4, 0, 0, 4, 4, 4, 3]);
    let wanted = Losses {
        device: 4,
        single: vec![3, 3],
    };
    assert_eq!(by_buffer, wanted);
}
