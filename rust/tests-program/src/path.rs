//! Regulators in a row and their arrivals, drawn at random. Document 02, 2.5.

use reference::path;
use reference::refusal::Refusal;
use reference::trace::Lists;

use crate::cases::wide;
use crate::dice::Dice;
use crate::{draw, profile};

/// One table for each stage, d and q, and the arrivals of slots 1, 2, ..
#[derive(Clone, Debug)]
pub struct Drawn {
    pub tables: Vec<Vec<u32>>,
    pub delay: u32,
    pub buffer: u32,
    pub arrivals: Vec<u32>,
}

impl Drawn {
    /// The tables as the reference takes them.
    pub fn wide_tables(&self) -> Vec<Vec<u64>> {
        self.tables.iter().map(|table| wide(table)).collect()
    }

    /// The lengths of the lists that a run fills.
    pub fn list_lengths(&self) -> [usize; 3] {
        let slots = self.arrivals.len();
        [slots, slots, self.tables.len() * slots]
    }

    /// What the reference fills them with.
    pub fn lists(&self) -> Result<Lists, Refusal> {
        let (delay, buffer) = (self.delay.into(), self.buffer.into());
        let arrivals = wide(&self.arrivals);
        let lengths = self.list_lengths();
        path::run(&self.wide_tables(), delay, buffer, &arrivals, lengths)
    }
}

/// Mostly a few slots; one in fifteen has some hundred.
pub fn any(dice: &mut Dice) -> Drawn {
    let most_slots = if dice.below(15) == 0 { 300 } else { 24 };
    let slots = dice.below(most_slots + 1);
    path(dice, slots)
}

/// One to four stages of about the same rate, so that each has its say, and so many slots.
pub fn path(dice: &mut Dice, slots: u32) -> Drawn {
    let stages = dice.between(1, 4);
    let scale = dice.pick([1, 2, 4, 9, 30, 1_000, 400_000]);
    let tables: Vec<Vec<u32>> = (0..stages).map(|_| table(dice, scale)).collect();
    let rates = tables.iter().map(|table| rate(table));
    let lowest = rates.min().unwrap_or(0) + 1;
    let arrivals = profile::arrivals(dice, slots, lowest);
    let (delay, buffer) = profile::limits(dice, lowest);
    Drawn {
        tables,
        delay,
        buffer,
        arrivals: arrivals.into_iter().map(|count| count as u32).collect(),
    }
}

/// The packets a slot that a table lets depart in the long run, if it is subadditive.
fn rate(table: &[u32]) -> u32 {
    table[table.len() - 1] / (table.len() as u32 - 1)
}

/// Steps between entries as drawn, falling, rising, or all at once, which is the lowest at long
/// windows where it is the highest at short ones; and now and then a table of any size. Where f(1) is
/// 0, so is f everywhere, so that is drawn seldom.
fn table(dice: &mut Dice, scale: u32) -> Vec<u32> {
    let any = dice.between(1, 64);
    let last_window = dice.pick([1, 1, 2, 2, 3, 4, 5, 8, any, any, 63, 64]);
    let step = |dice: &mut Dice| dice.below(2 * scale + 1);
    let mut steps: Vec<u32> = (0..last_window).map(|_| step(dice)).collect();
    match dice.below(10) {
        0..=2 => steps.sort_by(|a, b| b.cmp(a)),
        3 => steps.sort(),
        4..=6 => {
            let all = steps.iter().sum();
            steps.fill(0);
            steps[0] = all;
        }
        7 => return draw::table(dice, last_window),
        _ => (),
    }
    if dice.below(12) > 0 {
        steps[0] = steps[0].max(1);
    }
    draw::entries(&steps)
}
