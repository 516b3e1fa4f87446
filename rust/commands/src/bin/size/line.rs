//! One line: a smallest limit, what it loses, and what a smaller one would.

use std::fmt;

/// What is asked for; the other limit is given.
#[derive(Clone, Copy, Debug, PartialEq, Eq)]
pub enum Sought {
    /// The buffer limit with which no more than so many packets are lost by the last slot.
    Buffer,
    /// The delay limit, likewise.
    Delay,
    /// The buffer limit with which no slot has lost more than with none.
    EverySlot,
}

impl Sought {
    fn name(self) -> &'static str {
        match self {
            Sought::Buffer | Sought::EverySlot => "buffer",
            Sought::Delay => "delay limit",
        }
    }

    fn greatest(self) -> &'static str {
        match self {
            Sought::Buffer | Sought::EverySlot => "1,000,000",
            Sought::Delay => "64",
        }
    }

    /// The limit that is given.
    fn beside(self, given: Option<u32>) -> String {
        match (self, given) {
            (Sought::Delay, Some(buffer)) => format!("buffer {buffer}"),
            (Sought::Delay, None) => String::from("no limit on the buffer"),
            (_, Some(delay)) => format!("delay limit {delay}"),
            (_, None) => String::from("no limit on the delay"),
        }
    }

    /// What for, where it is not the number of packets that was asked for.
    fn purpose(self) -> &'static str {
        match self {
            Sought::Buffer | Sought::Delay => "",
            Sought::EverySlot => " to lose no more by any slot than with no limit",
        }
    }
}

#[derive(Clone, Debug, PartialEq, Eq)]
pub struct Line {
    pub sought: Sought,
    /// The other limit; none is no limit.
    pub given: Option<u32>,
    pub found: Found,
}

/// Losses are those by the last slot.
#[derive(Clone, Debug, PartialEq, Eq)]
pub enum Found {
    /// Nothing is smaller than 0.
    Zero { lost: u64 },
    /// The smallest limit that does, and the one below it.
    Smallest { limit: u32, lost: u64, below: Short },
    /// The greatest limit, which is too small.
    NoneDoes { greatest: Short },
}

/// What our regulator loses with a limit that is too small.
#[derive(Clone, Copy, Debug, PartialEq, Eq)]
pub struct Short {
    pub limit: u32,
    pub lost: u64,
    /// The slot by which it is lost, where that is not the last one.
    pub by: Option<By>,
    /// Where it is not shown that nobody loses fewer: the stream would have to end in as many slots
    /// without arrivals.
    pub unseen: Option<u32>,
}

/// The first slot by which more is lost than with no limit, which loses so many by it.
#[derive(Clone, Copy, Debug, PartialEq, Eq)]
pub struct By {
    pub slot: usize,
    pub least: u64,
}

impl fmt::Display for Line {
    fn fmt(&self, out: &mut fmt::Formatter<'_>) -> fmt::Result {
        let (name, purpose) = (self.sought.name(), self.sought.purpose());
        let with = self.sought.beside(self.given) + purpose;
        match &self.found {
            Found::Zero { lost } => write!(out, "{name} 0 does already with {with}: {lost} lost"),
            Found::Smallest { limit, lost, below } => {
                write!(out, "smallest {name} {limit} with {with}: {lost} lost; ")?;
                write!(out, "with {} {below}", below.limit)
            }
            Found::NoneDoes { greatest } => {
                let most = self.sought.greatest();
                write!(out, "no {name} up to {most} does with {with}: ")?;
                write!(out, "with {most} {greatest}")
            }
        }
    }
}

impl fmt::Display for Short {
    fn fmt(&self, out: &mut fmt::Formatter<'_>) -> fmt::Result {
        let lost = self.lost;
        match self.unseen {
            None => write!(out, "no regulator loses fewer than {lost}")?,
            Some(_) => write!(out, "our regulator loses {lost}")?,
        }
        if let Some(By { slot, least }) = self.by {
            write!(out, " by slot {slot}, where no limit loses {least}")?;
        }
        match self.unseen {
            None => Ok(()),
            Some(slots) => {
                let slots = match slots {
                    1 => String::from("a slot"),
                    _ => format!("{slots} slots"),
                };
                write!(
                    out,
                    "; that no other loses fewer is not shown, since the stream does not end in {slots} without arrivals"
                )
            }
        }
    }
}
