//! Rows of a trace that somebody might bring: ours, another regulator's, rubbish, and ours with a few
//! numbers changed.

use bezhantiru::{NO_BUFFER, NO_DELAY};
use reference::layout::StreamFile;
use tests_program::dice::Dice;

use crate::anyone::Asked;
use crate::beside_ours::ours;

/// A trace with our rows.
pub fn our_rows(file: StreamFile) -> Result<Asked, String> {
    let arrivals = file.arrivals();
    ours(&Asked {
        limits: (file.header.delay, file.header.buffer),
        table: file.table,
        admitted: Vec::new(),
        departed: Vec::new(),
        arrivals,
    })
}

/// Rows that somebody else's regulator might have: one that works with a smaller table, buffer or
/// delay than it need.
pub fn a_rival_s(asked: &Asked, dice: &mut Dice) -> Result<Asked, String> {
    let mut rival = asked.clone();
    let (delay, buffer) = &mut rival.limits;
    match dice.below(3) {
        0 if *delay != NO_DELAY => *delay = dice.below(*delay + 1),
        1 => *buffer = dice.below((*buffer).min(1_000_000) + 1),
        _ => {
            let most = dice.below(rival.table[rival.table.len() - 1] + 1);
            rival
                .table
                .iter_mut()
                .for_each(|entry| *entry = (*entry).min(most));
        }
    }
    if rival.limits == (NO_DELAY, NO_BUFFER) {
        rival.limits.1 = 3;
    }
    let rows = ours(&rival)?;
    Ok(Asked {
        admitted: rows.admitted,
        departed: rows.departed,
        ..asked.clone()
    })
}

/// Rows that keep most rules most of the time.
pub fn rubbish(asked: &Asked, dice: &mut Dice) -> Asked {
    let (mut rows, mut held) = (asked.clone(), 0_u32);
    let (careless, rate) = (dice.pick([0, 1, 10]), asked.table[1] + 2);
    for slot in 0..asked.arrivals.len() {
        let arrived = asked.arrivals[slot];
        let over = u32::from(dice.below(100) < careless);
        rows.admitted[slot] = dice.below(arrived + 1 + over) + over;
        held = held.saturating_add(rows.admitted[slot]);
        let departed = dice.below(rate).min(held) + over * dice.below(2);
        rows.departed[slot] = departed;
        held = held.saturating_sub(departed);
    }
    rows
}

/// A number near it, or far from it.
fn other(number: u32, dice: &mut Dice) -> u32 {
    let near = [number.wrapping_sub(1), number + 1, number / 2];
    let far = [0, 1, 1_000_001, 1 << 31, u32::MAX];
    let others = [near[0], near[1], near[1], near[2], far[dice.place(5)]];
    dice.pick(others)
}

/// Ours with one number changed, with two, or with one packet that departs a slot earlier or later.
pub fn changed(asked: &Asked, dice: &mut Dice) -> Asked {
    let (mut rows, slots) = (asked.clone(), asked.arrivals.len());
    if slots == 0 {
        return rows;
    }
    for _ in 0..dice.pick([1, 1, 2]) {
        let slot = dice.place(slots);
        match dice.below(3) {
            0 => rows.admitted[slot] = other(rows.admitted[slot], dice),
            1 => rows.departed[slot] = other(rows.departed[slot], dice),
            _ => {
                let to = dice.place(slots);
                let moved = rows.departed[slot].min(1);
                rows.departed[slot] -= moved;
                rows.departed[to] = rows.departed[to].saturating_add(moved);
            }
        }
    }
    rows
}
