//! The rule that anyone's rows break first, with the numbers that break it.

use std::fmt;

use bezhantiru::Rule;
use commands::rows::Rows;
use commands::trace::sum;
use reference::layout::StreamFile;

/// Slots are those that a reader looks up in the rows; sums are in 64 bits.
#[derive(Clone, Debug, PartialEq, Eq)]
pub enum Breach {
    /// In a slot.
    Arrivals {
        slot: usize,
        admitted: u64,
        arrived: u64,
    },
    /// By a slot.
    Departures {
        slot: usize,
        departed: u64,
        admitted: u64,
    },
    /// In slots from the first to the last.
    Envelope {
        first: usize,
        last: usize,
        departed: u64,
        may: u64,
    },
    /// Before a slot's departures.
    Buffer { slot: usize, fill: u64, may: u64 },
    /// Admitted by one slot and due by another.
    Delay {
        admitted_by: usize,
        due_by: usize,
        admitted: u64,
        departed: u64,
    },
    /// A rule that has no words here.
    Other { rule: u32, slot: usize },
}

impl Breach {
    /// What the library's rule and slot say of rows.
    pub(crate) fn of(rule: Rule, slot: usize, file: &StreamFile, rows: &Rows) -> Breach {
        let admitted_by = |slot: usize| sum(&rows.admitted[..slot]);
        let departed_by = |slot: usize| sum(&rows.departed[..slot]);
        match rule {
            Rule::Arrivals => Breach::Arrivals {
                slot,
                admitted: rows.admitted[slot - 1].into(),
                arrived: file.arrivals()[slot - 1].into(),
            },
            Rule::Departures => Breach::Departures {
                slot,
                departed: departed_by(slot),
                admitted: admitted_by(slot),
            },
            Rule::Envelope { window } => {
                let before = slot - window as usize;
                Breach::Envelope {
                    first: before + 1,
                    last: slot,
                    departed: departed_by(slot) - departed_by(before),
                    may: file.table[window as usize].into(),
                }
            }
            Rule::Buffer => Breach::Buffer {
                slot,
                fill: admitted_by(slot) - departed_by(slot - 1),
                may: file.header.buffer.into(),
            },
            Rule::Delay => {
                let before = slot - file.header.delay as usize;
                Breach::Delay {
                    admitted_by: before,
                    due_by: slot,
                    admitted: admitted_by(before),
                    departed: departed_by(slot),
                }
            }
            Rule::Unlisted(rule) => Breach::Other { rule, slot },
        }
    }
}

impl fmt::Display for Breach {
    fn fmt(&self, out: &mut fmt::Formatter<'_>) -> fmt::Result {
        match self {
            Breach::Arrivals {
                slot,
                admitted,
                arrived,
            } => write!(
                out,
                "breaks the arrivals: {admitted} admitted in slot {slot}, {arrived} arrive"
            ),
            Breach::Departures {
                slot,
                departed,
                admitted,
            } => write!(
                out,
                "breaks the departures: {departed} departed by slot {slot}, {admitted} were admitted"
            ),
            Breach::Envelope {
                first,
                last,
                departed,
                may,
            } => {
                let slots = match last - first {
                    0 => format!("slot {last}"),
                    _ => format!("slots {first} to {last}"),
                };
                write!(
                    out,
                    "breaks the envelope: {departed} departed in {slots}, {may} may"
                )
            }
            Breach::Buffer { slot, fill, may } => write!(
                out,
                "breaks the buffer limit: {fill} held before the departures of slot {slot}, {may} may be"
            ),
            Breach::Delay {
                admitted_by,
                due_by,
                admitted,
                departed,
            } => write!(
                out,
                "breaks the delay limit: {admitted} admitted by slot {admitted_by} and due by slot {due_by}, {departed} departed"
            ),
            Breach::Other { rule, slot } => write!(out, "breaks rule {rule} in slot {slot}"),
        }
    }
}
