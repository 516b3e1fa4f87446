//! The smallest limits asked for, and what the reference answers.

use bezhantiru::boundary::{self, Size};
use bezhantiru::{Refusal, smallest_buffer, smallest_delay};
use reference::{refusal, size};
use tests_program::cases::wide;

use crate::whole_trace;

/// The limit that is asked for; the other one is given.
#[derive(Clone, Copy, Debug, PartialEq, Eq)]
pub enum Sought {
    Buffer,
    Delay,
}

/// Any of it may have to be refused.
#[derive(Clone, Debug)]
pub struct Asked {
    pub sought: Sought,
    pub table: Vec<u32>,
    /// The delay and the buffer limit, of which only the one that is given is looked at.
    pub limits: (u32, u32),
    pub arrivals: Vec<u32>,
    pub most_lost: u32,
}

/// One of the reference's ways to a limit.
type Way = fn(&[u64], u64, &[u64], u64) -> Result<size::Size, refusal::Refusal>;

impl Sought {
    pub const BOTH: [Sought; 2] = [Sought::Buffer, Sought::Delay];

    /// The greatest limit that is tried.
    pub fn greatest(self) -> u32 {
        match self {
            Sought::Buffer => 1_000_000,
            Sought::Delay => 64,
        }
    }
}

impl Asked {
    /// The boundary's answer, which the wrapper has to give too.
    pub fn find(&self) -> Size {
        let (table, given, arrivals) = (&self.table, self.given(), &self.arrivals);
        let most_lost = self.most_lost;
        let (answer, wrapped) = match self.sought {
            Sought::Buffer => (
                boundary::smallest_buffer(table, given, arrivals, most_lost),
                smallest_buffer(table, given, arrivals, most_lost),
            ),
            Sought::Delay => (
                boundary::smallest_delay(table, given, arrivals, most_lost),
                smallest_delay(table, given, arrivals, most_lost),
            ),
        };
        assert_eq!(unwrapped(wrapped), answer, "{self:?}");
        answer
    }

    fn given(&self) -> u32 {
        match self.sought {
            Sought::Buffer => self.limits.0,
            Sought::Delay => self.limits.1,
        }
    }

    /// What the reference finds by a search through all limits.
    pub fn by_search(&self) -> Size {
        self.by(match self.sought {
            Sought::Buffer => size::buffer_by_search,
            Sought::Delay => size::delay_by_search,
        })
    }

    /// What it finds by halving.
    pub fn by_halving(&self) -> Size {
        self.by(match self.sought {
            Sought::Buffer => size::buffer_by_halving,
            Sought::Delay => size::delay_by_halving,
        })
    }

    fn by(&self, way: Way) -> Size {
        let (table, arrivals) = (wide(&self.table), wide(&self.arrivals));
        match way(
            &table,
            self.given().into(),
            &arrivals,
            self.most_lost.into(),
        ) {
            Ok(size) => Size {
                number: 0,
                found: size.found.into(),
                limit: fitting(size.limit),
                lost: fitting(size.lost),
            },
            Err(refusal) => refused(refusal.number().into()),
        }
    }

    /// What the whole-trace run loses by the last slot with a limit.
    pub fn lost_with(&self, limit: u32) -> u32 {
        let (delay, buffer) = self.limits;
        let limits = match self.sought {
            Sought::Buffer => (delay, limit),
            Sought::Delay => (limit, buffer),
        };
        let run = whole_trace::run(
            &self.table,
            limits,
            &self.arrivals,
            [self.arrivals.len(); 3],
        );
        assert_eq!(run.outcome, Ok(()), "{self:?}");
        run.lists[1].iter().sum()
    }
}

pub fn refused(number: u32) -> Size {
    Size {
        number,
        found: 0,
        limit: 0,
        lost: 0,
    }
}

fn unwrapped(wrapped: Result<bezhantiru::Size, Refusal>) -> Size {
    let (found, limit, lost) = match wrapped {
        Ok(bezhantiru::Size::Smallest { limit, lost }) => (1, limit, lost),
        Ok(bezhantiru::Size::NoneDoes { greatest, lost }) => (0, greatest, lost),
        Err(refusal) => return refused(refusal.number()),
    };
    Size {
        number: 0,
        found,
        limit,
        lost,
    }
}

fn fitting(count: u64) -> u32 {
    u32::try_from(count).expect("32 bits hold every limit and loss")
}
