//! Envelopes that vary with time and their arrivals, drawn at random. Document 02, 2.10.

use reference::layout::NO_DELAY;
use reference::refusal::Refusal;
use reference::square::{self, LAST_SLOT};
use reference::trace::Lists;

use crate::cases::wide;
use crate::dice::Dice;
use crate::{draw, profile};

const SIDE: usize = LAST_SLOT + 1;
const MOST_PACKETS: u32 = 1_000_000;

/// As the library takes it.
pub type Square = [[u32; SIDE]; SIDE];

/// A square, d and q, and the arrivals of slots 1, 2, ..
#[derive(Clone, Debug)]
pub struct Drawn {
    pub square: Square,
    pub delay: u32,
    pub buffer: u32,
    pub arrivals: Vec<u32>,
}

impl Drawn {
    /// The square as the reference takes it.
    pub fn wide_square(&self) -> square::Square {
        widened(&self.square)
    }

    /// What the reference fills the lists with.
    pub fn lists(&self) -> Result<Lists, Refusal> {
        let (delay, buffer) = (self.delay.into(), self.buffer.into());
        let arrivals = wide(&self.arrivals);
        let lengths = [arrivals.len(); 3];
        square::run(&self.wide_square(), delay, buffer, &arrivals, lengths)
    }

    /// The last slot whose entries are looked at.
    pub fn reached(&self) -> usize {
        self.arrivals.len() + ahead(self.delay)
    }
}

pub fn widened(square: &Square) -> square::Square {
    square.map(|row| row.map(u64::from))
}

fn ahead(delay: u32) -> usize {
    if delay == NO_DELAY { 0 } else { delay as usize }
}

/// One in three with as many slots as there can be.
pub fn any(dice: &mut Dice) -> Drawn {
    let delay = delay(dice);
    let most = (LAST_SLOT - ahead(delay)) as u32;
    let some = dice.below(most + 1);
    let slots = dice.pick([some, some, most]);
    let scale = dice.pick([1, 2, 4, 9, 30, 1_000, 30_000, 400_000]);
    let square = square(dice, scale);
    let arrivals = profile::arrivals(dice, slots, scale);
    Drawn {
        square,
        delay,
        buffer: draw::beside(delay, profile::buffer(dice, scale)),
        arrivals: arrivals.into_iter().map(|count| count as u32).collect(),
    }
}

fn delay(dice: &mut Dice) -> u32 {
    let any = dice.below(SIDE as u32);
    let most = LAST_SLOT as u32;
    let none = NO_DELAY;
    dice.pick([0, 1, 1, 2, 3, 5, 8, most - 1, most, any, none, none, none])
}

/// An allowance for each slot, rows of their own, or windows whenever they begin; or at each place the
/// smaller of two of them.
pub fn square(dice: &mut Dice, scale: u32) -> Square {
    let one = kind(dice, scale);
    if dice.below(3) > 0 {
        return one;
    }
    let other = kind(dice, scale);
    build(|s, t| one[s][t].min(other[s][t]))
}

fn kind(dice: &mut Dice, scale: u32) -> Square {
    match dice.below(3) {
        0 => by_slots(dice, scale),
        1 => by_rows(dice, scale),
        _ => by_windows(dice, scale),
    }
}

fn build(entry: impl Fn(usize, usize) -> u32) -> Square {
    let mut square = [[0; SIDE]; SIDE];
    for (s, row) in square.iter_mut().enumerate() {
        for (t, place) in row.iter_mut().enumerate().skip(s + 1) {
            *place = entry(s, t).min(MOST_PACKETS);
        }
    }
    square
}

/// What each slot allows, with slots that allow nothing, and a burst on top of every window.
fn by_slots(dice: &mut Dice, scale: u32) -> Square {
    let mut allowed = vec![0];
    let turn = dice.between(1, 6);
    let stops = dice.pick([0, 2, 3]);
    for slot in 0..LAST_SLOT as u32 {
        let stopped = stops > 0 && (slot / turn) % stops == stops - 1;
        let allowance = if stopped {
            0
        } else {
            dice.below(2 * scale + 1)
        };
        allowed.push(allowed[allowed.len() - 1] + allowance);
    }
    let burst = dice.below(scale + 1);
    let burst = dice.pick([0, 0, burst]);
    build(|s, t| allowed[t] - allowed[s] + burst)
}

/// Rows that know nothing of each other: steps as drawn, seldom, or one at once.
fn by_rows(dice: &mut Dice, scale: u32) -> Square {
    let out_of_ten = dice.pick([1, 4, 10]);
    let mut square = [[0; SIDE]; SIDE];
    for (s, row) in square.iter_mut().enumerate() {
        let mut entry = if dice.below(4) == 0 {
            dice.below(4 * scale + 1)
        } else {
            0
        };
        for place in &mut row[s + 1..] {
            if dice.below(10) < out_of_ten {
                entry += dice.below(2 * scale + 1);
            }
            *place = entry.min(MOST_PACKETS);
        }
    }
    square
}

/// A table's entries, closed or not.
fn by_windows(dice: &mut Dice, scale: u32) -> Square {
    let mut steps: Vec<u32> = (0..LAST_SLOT).map(|_| dice.below(2 * scale + 1)).collect();
    match dice.below(3) {
        0 => steps.sort_by(|a, b| b.cmp(a)),
        1 => steps.sort(),
        _ => (),
    }
    let table = draw::entries(&steps);
    build(|s, t| table[t - s])
}
