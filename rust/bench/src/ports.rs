//! Full runs of a shared port, eight streams of 256 slots: the library beside two ports in Rust, one that
//! counts what waits by due slot, as the library does, and one that keeps a FIFO a stream.

use std::fmt;
use std::hint::black_box;

use bezhantiru::{PortLists, Refusal, port};

use crate::clock::Work;
use crate::quick::Refused;
use crate::work::moved;
use crate::{heads, places, samples};

const STREAMS: usize = 8;
const SLOTS: usize = 256;

/// Who does the work.
#[derive(Clone, Copy, Debug, PartialEq, Eq)]
pub enum Side {
    Library,
    /// By due slot, in Rust.
    Rust,
    /// A FIFO a stream, in Rust.
    Heads,
}

pub const SIDES: [Side; 3] = [Side::Library, Side::Rust, Side::Heads];

/// The deadlines of the streams.
#[derive(Clone, Copy, Debug, PartialEq, Eq)]
pub enum Deadlines {
    Alike,
    Mixed,
}

impl Deadlines {
    fn numbers(self) -> [u32; STREAMS] {
        match self {
            Deadlines::Alike => [8; STREAMS],
            Deadlines::Mixed => [64, 0, 3, 40, 1, 20, 8, 2],
        }
    }

    pub fn name(self) -> &'static str {
        match self {
            Deadlines::Alike => "alike",
            Deadlines::Mixed => "mixed",
        }
    }
}

/// One side's full run. The load is what comes in a slot on the average, in hundredths of what the port
/// can send.
#[derive(Clone, Copy, Debug, PartialEq, Eq)]
pub struct Case {
    pub side: Side,
    pub deadlines: Deadlines,
    pub load: u32,
}

pub const LOADS: [u32; 3] = [50, 95, 150];
pub const DEADLINES: [Deadlines; 2] = [Deadlines::Alike, Deadlines::Mixed];

impl Case {
    /// All sides of one row.
    pub fn row(deadlines: Deadlines, load: u32) -> [Case; 3] {
        SIDES.map(|side| Case {
            side,
            deadlines,
            load,
        })
    }

    /// Every case that is measured.
    pub fn all() -> Vec<Case> {
        let rows = DEADLINES
            .into_iter()
            .flat_map(|deadlines| LOADS.map(|load| (deadlines, load)));
        rows.flat_map(|(deadlines, load)| Case::row(deadlines, load))
            .collect()
    }

    fn input() -> Vec<u32> {
        samples::arrivals(&samples::table(STREAMS), STREAMS * SLOTS)
    }

    fn capacity(&self, input: &[u32]) -> u32 {
        let packets: u32 = input.iter().sum();
        packets / SLOTS as u32 * 100 / self.load
    }

    fn run(
        &self,
        deadlines: &[u32],
        capacity: u32,
        input: &[u32],
        lists: PortLists<'_>,
    ) -> Result<(), Refused> {
        let slots = SLOTS as u32;
        match self.side {
            Side::Library => {
                port::run(deadlines, slots, capacity, input, lists).map_err(Refusal::number)
            }
            Side::Rust => places::run(deadlines, slots, capacity, input, lists),
            Side::Heads => heads::run(deadlines, slots, capacity, input, lists),
        }
    }

    /// Both lists.
    fn answers(&self) -> Result<[Vec<u32>; 2], Refused> {
        let input = Case::input();
        let capacity = self.capacity(&input);
        let (mut sent, mut late) = (vec![0; input.len()], vec![0; STREAMS]);
        let lists = PortLists {
            sent: &mut sent,
            late: &mut late,
        };
        self.run(&self.deadlines.numbers(), capacity, &input, lists)?;
        Ok([sent, late])
    }

    /// The work, ready to be done again and again.
    pub fn work(self) -> Work<'static> {
        let (input, deadlines) = (Case::input(), self.deadlines.numbers());
        let capacity = self.capacity(&input);
        let (mut sent, mut late) = (vec![0; input.len()], vec![0; STREAMS]);
        moved(Box::new(move || {
            let lists = PortLists {
                sent: &mut sent,
                late: &mut late,
            };
            let done = self.run(black_box(&deadlines), capacity, black_box(&input), lists);
            let _ = black_box(done);
        }))
    }
}

/// Ends with a problem unless all cases of a row fill the lists alike; else with their late packets.
pub fn agree(row: &[Case]) -> Result<u64, String> {
    let mut before = None;
    for case in row {
        let found = case.answers();
        let found = found.map_err(|number| format!("{case}: refused {number}"))?;
        match &before {
            Some(wanted) if *wanted != found => {
                return Err(format!("{case} does not answer as the others do"));
            }
            _ => before = Some(found),
        }
    }
    let late = before.map_or_else(Vec::new, |[_, late]| late);
    Ok(late.into_iter().map(u64::from).sum())
}

impl fmt::Display for Case {
    fn fmt(&self, out: &mut fmt::Formatter<'_>) -> fmt::Result {
        let side = match self.side {
            Side::Library => "library",
            Side::Rust => "rust",
            Side::Heads => "heads",
        };
        write!(out, "port-{side}-{}-{}", self.deadlines.name(), self.load)
    }
}
