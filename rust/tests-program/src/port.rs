//! Streams at a shared port, drawn at random. Document 02, 2.11.

use reference::port::{self, Input, Lists};
use reference::refusal::Refusal;

use crate::cases::wide;
use crate::dice::Dice;

/// A deadline for each stream, the slots, the capacity, and the packets of each slot, stream after
/// stream.
#[derive(Clone, Debug)]
pub struct Drawn {
    pub deadlines: Vec<u32>,
    pub slots: u32,
    pub capacity: u32,
    pub input: Vec<u32>,
}

impl Drawn {
    /// The lengths of the lists that a run fills.
    pub fn list_lengths(&self) -> [usize; 2] {
        [self.input.len(), self.deadlines.len()]
    }

    /// Does something with the numbers as the reference takes them.
    pub fn as_input<T>(&self, work: impl FnOnce(Input<'_>) -> T) -> T {
        let (deadlines, input) = (wide(&self.deadlines), wide(&self.input));
        work(Input {
            deadlines: &deadlines,
            slots: self.slots.into(),
            capacity: self.capacity.into(),
            input: &input,
        })
    }

    /// What the reference fills the lists with.
    pub fn lists(&self) -> Result<Lists, Refusal> {
        self.as_input(|input| port::run(input, self.list_lengths()))
    }
}

/// Mostly a few slots; one in fifteen has as many as a run can have.
pub fn any(dice: &mut Dice) -> Drawn {
    let some = dice.below(40);
    let slots = if dice.below(15) == 0 { 256 } else { some };
    port(dice, slots)
}

/// One to eight streams that together bring about as many packets as the port sends.
pub fn port(dice: &mut Dice, slots: u32) -> Drawn {
    let streams = dice.between(1, 8);
    let scale = dice.pick([1, 1, 2, 4, 30, 1_000, 500_000]);
    let input = (0..streams)
        .flat_map(|_| stream(dice, slots, scale))
        .collect();
    Drawn {
        deadlines: deadlines(dice, streams),
        slots,
        capacity: capacity(dice, streams, scale),
        input,
    }
}

/// All alike, near each other so that there are ties, or anything.
fn deadlines(dice: &mut Dice, streams: u32) -> Vec<u32> {
    let most = dice.pick([0, 1, 3, 8, 64]);
    let alike = dice.below(4) == 0;
    let first = dice.below(most + 1);
    (0..streams)
        .map(|_| if alike { first } else { dice.below(most + 1) })
        .collect()
}

/// Steady, in turns, seldom or never.
fn stream(dice: &mut Dice, slots: u32, scale: u32) -> Vec<u32> {
    let out_of_ten = dice.pick([0, 1, 3, 6, 10]);
    let burst = dice.pick([1, 1, 4]);
    let count = |dice: &mut Dice| {
        if dice.below(10) < out_of_ten {
            dice.below(2 * burst * scale + 1).min(1_000_000)
        } else {
            0
        }
    };
    (0..slots).map(|_| count(dice)).collect()
}

/// About the load, mostly; or nothing, or as much as there can be.
fn capacity(dice: &mut Dice, streams: u32, scale: u32) -> u32 {
    let load = streams * scale;
    let some = dice.below(load + 1);
    match dice.below(20) {
        0 => 0,
        1 => u32::MAX,
        2 => 1,
        3..=8 => load,
        _ => some + 1,
    }
}
