//! Demand 3 on tiny traces, beside a search through all permitted pairs.

use std::fmt::Debug;
use std::sync::atomic::{AtomicUsize, Ordering};

use bezhantiru::{NO_BUFFER, NO_DELAY};
use reference::permitted::{Envelope, Pair, Terms, premise, totals};
use reference::regulator::Limits;
use tests_program::cases::{for_each_drawn, said, same, wide};
use tests_program::dice::Dice;

/// Limits, and up to three slots with few packets, then as many empty ones as the premise asks for.
pub fn tiny(dice: &mut Dice) -> ((u32, u32), Vec<u32>) {
    let (delay, buffer) = dice.pick([
        (0, 1),
        (0, NO_BUFFER),
        (1, 0),
        (1, 2),
        (1, NO_BUFFER),
        (2, 1),
        (2, 3),
        (2, NO_BUFFER),
        (NO_DELAY, 0),
        (NO_DELAY, 1),
        (NO_DELAY, 2),
        (NO_DELAY, 3),
    ]);
    let slots = dice.below(4);
    let mut arrivals: Vec<u32> = (0..slots).map(|_| dice.below(4)).collect();
    let empty = if delay == NO_DELAY { 0 } else { delay };
    arrivals.resize((slots + empty) as usize, 0);
    ((delay, buffer), arrivals)
}

/// Whether our pair lost anything; a problem unless it is the greatest of all permitted ones.
pub fn check_greatest<F: Envelope>(
    f: &F,
    (delay, buffer): (u32, u32),
    arrivals: &[u32],
    ours: Pair,
) -> Result<bool, String> {
    let arrivals = wide(arrivals);
    let limits = said(Limits::from_numbers(delay.into(), buffer.into()))?;
    let terms = Terms {
        f,
        limits,
        arrived: &totals(&arrivals),
    };
    same("premise", premise(limits, &arrivals), true)?;
    same("greatest pair", &ours, &terms.greatest())?;
    Ok(ours.admitted.last() < terms.arrived.last())
}

/// So many drawn runs, a quarter of which at least lose packets.
pub fn check_drawn<D: Debug>(
    runs: usize,
    draw: impl Fn(&mut Dice) -> D + Sync,
    check: impl Fn(&D) -> Result<bool, String> + Sync,
) {
    let lossy = AtomicUsize::new(0);
    for_each_drawn(runs, |dice| {
        let drawn = draw(dice);
        let lost = check(&drawn).map_err(|problem| format!("{problem}\n{drawn:?}"))?;
        lossy.fetch_add(usize::from(lost), Ordering::Relaxed);
        Ok(())
    });
    let lossy = lossy.into_inner();
    println!("{lossy} of {runs} lose packets");
    assert!(lossy > runs / 4, "{lossy}");
}
