//! What is lost by the last slot over the buffer limit, for some delay limits.

use std::ops::RangeInclusive;

use bezhantiru::{Refusal, Size, smallest_buffer};
use commands::trace::{Run, sum};

use super::MOST_BUFFER;

/// One line of the picture.
#[derive(Clone, Debug, PartialEq, Eq)]
pub struct Losses {
    pub delay: u32,
    /// Buffer limits from the first to the last, and what is lost with each.
    pub lost: Vec<(u32, u64)>,
    /// The smallest buffer limit of all between them that loses no more than the last.
    pub enough: u32,
    /// Whether no larger one, up to the greatest, loses fewer.
    pub level: bool,
}

impl Losses {
    /// One buffer limit in so many is worked, and the last: what is lost never grows with the limit, so
    /// that those between lose no more than one neighbour and no less than the other.
    pub fn of(
        table: &[u32],
        delay: u32,
        arrivals: &[u32],
        buffers: &RangeInclusive<u32>,
        every: u32,
    ) -> Result<Losses, Refusal> {
        let (first, last) = (*buffers.start(), *buffers.end());
        let lost_with = |buffer| {
            let run = Run::of(table, (delay, buffer), arrivals)?;
            Ok(sum(&run.dropped))
        };
        let worked = (first..last).step_by(every as usize).chain([last]);
        let lost: Result<Vec<(u32, u64)>, Refusal> = worked
            .map(|buffer| Ok((buffer, lost_with(buffer)?)))
            .collect();
        let least = lost_with(last)?;
        // 32 bits hold what is lost of any trace.
        let enough = match smallest_buffer(table, delay, arrivals, least as u32)? {
            Size::Smallest { limit, .. } => limit.max(first),
            Size::NoneDoes { greatest, .. } => greatest,
        };
        Ok(Losses {
            delay,
            lost: lost?,
            enough,
            level: lost_with(MOST_BUFFER)? == least,
        })
    }

    /// With the first buffer limit.
    pub fn most(&self) -> u64 {
        self.lost.first().map_or(0, |(_, lost)| *lost)
    }

    /// With the last one.
    pub fn least(&self) -> u64 {
        self.lost.last().map_or(0, |(_, lost)| *lost)
    }
}
