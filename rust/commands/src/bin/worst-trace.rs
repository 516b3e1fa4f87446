//! The trace within given limits of which our regulator loses the most packets, as the library finds
//! it; and the stream file that feeds it.
//!
//!     worst-trace "0 2 3" DELAY BUFFER SLOTS MOST_IN_SLOT MOST_IN_ALL STREAM
//!
//! An empty word for STREAM writes no file.

use std::ffi::OsStr;
use std::fmt;
use std::fs;
use std::process::ExitCode;

use bezhantiru::{Refusal, worst_trace};
use commands::{Problem, Program, arguments, buffer, delay, entries, number};
use reference::layout::StreamFile;

/// More slots are refused, so that no longer list is ever lent.
const MOST_SLOTS: u32 = 4_096;

fn main() -> ExitCode {
    Program("worst-trace").answer(printed())
}

fn printed() -> Result<String, Problem> {
    let [table, limit, room, slots, in_slot, in_all, stream] =
        arguments("a table, two limits, the slots, two mosts, and a stream file or an empty word")?;
    let set_up = SetUp {
        table: entries(&table)?,
        delay: delay(&limit)?,
        buffer: buffer(&room)?,
    };
    let slots = number("the number of slots", &slots)?;
    let in_slot = number("the most in a slot", &in_slot)?;
    // No 4,096 slots of 1,000,000 have as many together as 32 bits hold: a greater number allows no more.
    let in_all = number("the most in all", &in_all)?;
    let worst = Worst::of(&set_up, slots, in_slot, in_all).map_err(Problem::no_answer)?;
    if !stream.is_empty() {
        write(&stream, &set_up.stream(&worst.trace))?;
    }
    Ok(worst.to_string())
}

fn write(file: &OsStr, stream: &StreamFile) -> Result<(), Problem> {
    let written = fs::write(file, stream.to_bytes());
    written.map_err(|error| {
        let file = file.display();
        Problem::no_answer(format!("the file '{file}' could not be written: {error}"))
    })
}

/// A table and two limits.
#[derive(Clone, Debug)]
pub struct SetUp {
    pub table: Vec<u32>,
    pub delay: u32,
    pub buffer: u32,
}

impl SetUp {
    /// The stream file of an accepted set-up and a trace; a slot without arrivals is not named.
    pub fn stream(&self, trace: &[u32]) -> StreamFile {
        let bursts = (1..).zip(trace.iter().copied());
        let bursts = bursts.filter(|&(_, count)| count > 0);
        let (limits, slots) = ((self.delay, self.buffer), trace.len() as u32);
        StreamFile::of(&self.table, limits, slots, bursts)
    }
}

/// A trace, and what is lost of it.
#[derive(Clone, Debug, PartialEq, Eq)]
pub struct Worst {
    pub trace: Vec<u32>,
    pub loss: u32,
}

impl Worst {
    /// The one that loses most, or the first refusal of table, 6, 7, 23, 10, 8.
    pub fn of(set_up: &SetUp, slots: u32, in_slot: u32, in_all: u32) -> Result<Worst, Refusal> {
        let mut trace = vec![0; slots.min(MOST_SLOTS) as usize];
        let SetUp {
            table,
            delay,
            buffer,
        } = set_up;
        let loss = worst_trace(table, *delay, *buffer, slots, in_slot, in_all, &mut trace)?;
        Ok(Worst { trace, loss })
    }
}

impl fmt::Display for Worst {
    fn fmt(&self, out: &mut fmt::Formatter<'_>) -> fmt::Result {
        out.write_str("trace")?;
        for count in &self.trace {
            write!(out, " {count}")?;
        }
        let arrived: u64 = self.trace.iter().copied().map(u64::from).sum();
        writeln!(out, "\narrived {arrived}, lost {}", self.loss)
    }
}
