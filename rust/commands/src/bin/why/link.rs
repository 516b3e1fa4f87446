//! One link of a chain, as a reader with a pencil writes it.

use std::fmt;

use commands::amount::{arrived, buffered};
use commands::pieces::Pieces;
use commands::trace::sum;
use reference::layout::StreamFile;

use super::NoAnswer;

/// What no more packets than its amount can be admitted for, after one slot through another.
#[derive(Clone, Debug, PartialEq, Eq)]
pub struct Link {
    /// The slot that it begins after.
    pub first: u32,
    pub last: u32,
    pub bound: Bound,
    pub amount: u32,
}

/// What bounds a link, and what its amount is made of.
#[derive(Clone, Debug, PartialEq, Eq)]
pub enum Bound {
    /// A at the last slot, and at the one that the link begins after.
    Arrivals { through: u64, before: u64 },
    /// f(w+d) and how it is made up
    Delay { delay: u32, reach: Pieces },
    /// f(w-1) and how it is made up, and q
    Buffer { before: Pieces, buffer: u32 },
}

impl Bound {
    /// What a mark says of a link in a file.
    pub fn marked(
        mark: u32,
        file: &StreamFile,
        arrivals: &[u32],
        first: u32,
        last: u32,
    ) -> Result<Bound, NoAnswer> {
        let arrived = |slot: u32| sum(&arrivals[..slot as usize]);
        match mark {
            1 => Ok(Bound::Arrivals {
                through: arrived(last),
                before: arrived(first),
            }),
            2 => Ok(Bound::Delay {
                delay: file.header.delay,
                reach: Pieces::of(&file.table, last - first + file.header.delay)?,
            }),
            3 => Ok(Bound::Buffer {
                before: Pieces::of(&file.table, last - first - 1)?,
                buffer: file.header.buffer,
            }),
            _ => Err(NoAnswer::Contradiction),
        }
    }
}

impl fmt::Display for Link {
    fn fmt(&self, out: &mut fmt::Formatter<'_>) -> fmt::Result {
        let (first, last, amount) = (self.first, self.last, self.amount.into());
        let window = last - first;
        match window {
            1 => write!(out, "slot {last}: ")?,
            _ => write!(out, "slots {} to {last}: ", first + 1)?,
        }
        match &self.bound {
            Bound::Arrivals { through, before } => {
                let slots = [first, last].map(u64::from);
                write!(
                    out,
                    "arrivals, {}",
                    arrived(slots, [*before, *through], amount)
                )
            }
            Bound::Delay { delay, reach } => write!(out, "delay, f({window}+{delay}) = {reach}"),
            Bound::Buffer { before, buffer } => {
                let sum = buffered(
                    before.window.into(),
                    [before.packets, (*buffer).into()],
                    amount,
                );
                write!(out, "buffer, {sum}")?;
                match before.window {
                    0 => Ok(()),
                    _ => write!(out, ", {before}"),
                }
            }
        }
    }
}
