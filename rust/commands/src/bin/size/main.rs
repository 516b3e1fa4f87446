//! How large the limits of a stream file have to be so that no more than so many packets are lost. The
//! library finds the limits; what a smaller one loses is its whole-trace run's, and the last line rests
//! on its live regulator's peak.
//!
//!     size FILE LOST        or        size - LOST < FILE

mod line;

use std::fmt;
use std::process::ExitCode;

use bezhantiru::{NO_BUFFER, NO_DELAY, Refusal, Regulator, Size, smallest_buffer, smallest_delay};
use commands::trace::{Run, empty_at_end, sum};
use commands::{Problem, Program, accepted, arguments, number, read};

pub use line::{By, Found, Line, Short, Sought};

/// The greatest buffer limit that is a number.
const MOST_BUFFER: u32 = 1_000_000;

fn main() -> ExitCode {
    Program("size").answer(printed())
}

fn printed() -> Result<String, Problem> {
    let [file, lost] = arguments("a stream file, or - for standard input, and the most lost")?;
    // No trace has as many packets as 32 bits hold: a greater number allows no more.
    let most_lost = number("the most lost", &lost)?;
    let sizes = Sizes::of_file(&read(&file)?, most_lost);
    let sizes = sizes.map_err(|refusal| Problem::refused(&file, refusal))?;
    Ok(sizes.to_string())
}

/// A line for each question.
#[derive(Clone, Debug, PartialEq, Eq)]
pub struct Sizes {
    pub buffer: Line,
    pub delay: Line,
    /// Asked where there is a delay limit.
    pub every_slot: Option<Line>,
}

impl Sizes {
    /// Or the file's first refusal, or 23.
    pub fn of_file(file: &[u8], most_lost: u32) -> Result<Sizes, Refusal> {
        let file = accepted(file)?;
        let (delay, buffer) = file.header.limits();
        // The questions below take one limit each; that both are none is the set-up's to refuse.
        Regulator::set_up(&file.table, delay, buffer)?;
        let (table, arrivals) = (&file.table[..], &file.arrivals()[..]);
        let stream = Stream { table, arrivals };
        let by_delay = (delay != NO_DELAY).then_some(delay);
        Ok(Sizes {
            buffer: Line {
                sought: Sought::Buffer,
                given: by_delay,
                found: found(
                    smallest_buffer(table, delay, arrivals, most_lost)?,
                    |less| stream.short((delay, less), less),
                )?,
            },
            delay: Line {
                sought: Sought::Delay,
                given: (buffer != NO_BUFFER).then_some(buffer),
                found: found(
                    smallest_delay(table, buffer, arrivals, most_lost)?,
                    |less| stream.short((less, buffer), less),
                )?,
            },
            every_slot: by_delay.map(|delay| stream.every_slot(delay)).transpose()?,
        })
    }
}

impl fmt::Display for Sizes {
    fn fmt(&self, out: &mut fmt::Formatter<'_>) -> fmt::Result {
        writeln!(out, "{}\n{}", self.buffer, self.delay)?;
        match &self.every_slot {
            Some(line) => writeln!(out, "{line}"),
            None => Ok(()),
        }
    }
}

/// What the library says of a limit, and what one less loses, or the greatest where it is too small.
fn found(size: Size, short: impl Fn(u32) -> Result<Short, Refusal>) -> Result<Found, Refusal> {
    Ok(match size {
        Size::Smallest { limit: 0, lost } => Found::Zero { lost: lost.into() },
        Size::Smallest { limit, lost } => Found::Smallest {
            limit,
            lost: lost.into(),
            below: short(limit - 1)?,
        },
        Size::NoneDoes { greatest, .. } => Found::NoneDoes {
            greatest: short(greatest)?,
        },
    })
}

struct Stream<'a> {
    table: &'a [u32],
    arrivals: &'a [u32],
}

impl Stream<'_> {
    /// What is lost by the last slot with two limits, one of which is too small.
    fn short(&self, limits: (u32, u32), limit: u32) -> Result<Short, Refusal> {
        let lost = sum(&Run::of(self.table, limits, self.arrivals)?.dropped);
        Ok(Short {
            limit,
            lost,
            by: None,
            unseen: self.unseen(limits, self.arrivals.len(), lost)?,
        })
    }

    /// Nobody loses fewer than ours by a slot where there is no delay limit, or the trace ends in as many
    /// slots without arrivals, or ours loses as many by it with no delay limit, which permits others no
    /// less; a delay limit for which none of that is so.
    fn unseen(&self, limits: (u32, u32), slot: usize, lost: u64) -> Result<Option<u32>, Refusal> {
        let (delay, buffer) = limits;
        let ends = delay == NO_DELAY || empty_at_end(self.arrivals) >= delay as usize;
        let shown = ends || buffer != NO_BUFFER && self.lost_undelayed(buffer, slot)? == lost;
        Ok((!shown).then_some(delay))
    }

    /// What is lost by a slot with a buffer limit alone.
    fn lost_undelayed(&self, buffer: u32, slot: usize) -> Result<u64, Refusal> {
        let run = Run::of(self.table, (NO_DELAY, buffer), self.arrivals)?;
        Ok(sum(&run.dropped[..slot]))
    }

    /// The buffer with which no slot has lost more than under the delay limit alone is the bench's
    /// peak under that.
    fn every_slot(&self, delay: u32) -> Result<Line, Refusal> {
        let mut regulator = Regulator::set_up(self.table, delay, NO_BUFFER)?;
        for &count in self.arrivals {
            regulator.slot(count.into())?;
        }
        let alone = Run::of(self.table, (delay, NO_BUFFER), self.arrivals)?;
        // 32 bits hold what is lost of any trace.
        let lost = alone.dropped.iter().sum();
        let size = match u32::try_from(regulator.bench_peak()) {
            Ok(limit @ ..=MOST_BUFFER) => Size::Smallest { limit, lost },
            _ => Size::NoneDoes {
                greatest: MOST_BUFFER,
                lost,
            },
        };
        Ok(Line {
            sought: Sought::EverySlot,
            given: Some(delay),
            found: found(size, |buffer| self.short_by_slot(delay, buffer, &alone))?,
        })
    }

    /// What is lost by the first slot by which a buffer limit loses more than none.
    fn short_by_slot(&self, delay: u32, buffer: u32, alone: &Run) -> Result<Short, Refusal> {
        let run = Run::of(self.table, (delay, buffer), self.arrivals)?;
        let mut pairs = run.dropped.iter().zip(&alone.dropped);
        let differ = pairs.position(|(with, without)| with != without);
        let slot = differ.map_or(self.arrivals.len(), |before| before + 1);
        let [lost, least] = [&run, alone].map(|of| sum(&of.dropped[..slot]));
        Ok(Short {
            limit: buffer,
            lost,
            by: Some(By { slot, least }),
            unseen: self.unseen((delay, buffer), slot, lost)?,
        })
    }
}
