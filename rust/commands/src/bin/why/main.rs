//! Why no more packets of a stream file are admitted by a slot. The library judges the file, finds the
//! chain and checks it; what the chain is set beside comes from the library's whole-trace run.
//!
//!     why FILE SLOT        or        why - SLOT < FILE

mod link;

use std::fmt;
use std::process::ExitCode;

use bezhantiru::{Chain, ChainLists, Refusal, check_chain, find_chain};
use commands::trace::{Run, sum};
use commands::{Problem, Program, accepted, arguments, number, read};
use reference::layout::StreamFile;

pub use link::{Bound, Link};

fn main() -> ExitCode {
    Program("why").answer(printed())
}

fn printed() -> Result<String, Problem> {
    let [file, slot] = arguments("a stream file, or - for standard input, and a slot")?;
    let slot = number("the slot", &slot)?;
    let why = Why::of_file(&read(&file)?, slot);
    let why = why.map_err(|reason| match reason {
        NoAnswer::Refused(refusal) => Problem::refused(&file, refusal),
        NoAnswer::Contradiction => Problem::of_file(&file, reason),
    })?;
    Ok(why.to_string())
}

/// A slot's chain, beside the totals by that slot.
#[derive(Clone, Debug, PartialEq, Eq)]
pub struct Why {
    pub slot: u32,
    pub links: Vec<Link>,
    /// A, X and A - X at the slot.
    pub arrived: u64,
    pub admitted: u64,
    pub lost: u64,
}

/// Why there is no chain to print.
#[derive(Clone, Copy, Debug, PartialEq, Eq)]
pub enum NoAnswer {
    Refused(Refusal),
    /// The checker does not accept what the finder found, or its sum is not what the run admits.
    Contradiction,
}

impl From<Refusal> for NoAnswer {
    fn from(refusal: Refusal) -> NoAnswer {
        NoAnswer::Refused(refusal)
    }
}

impl fmt::Display for NoAnswer {
    fn fmt(&self, out: &mut fmt::Formatter<'_>) -> fmt::Result {
        match self {
            NoAnswer::Refused(refusal) => refusal.fmt(out),
            NoAnswer::Contradiction => out.write_str("the chain does not fit the whole-trace run"),
        }
    }
}

impl Why {
    /// The first refusal is the file's, or 18 for the slot.
    pub fn of_file(file: &[u8], slot: u32) -> Result<Why, NoAnswer> {
        let file = accepted(file)?;
        let arrivals = file.arrivals();
        let links = links(&file, &arrivals, slot)?;
        let [admitted, lost] = totals(&file, &arrivals, slot)?;
        let why = Why {
            slot,
            links,
            arrived: sum(&arrivals[..slot as usize]),
            admitted,
            lost,
        };
        if why.sum() == admitted {
            Ok(why)
        } else {
            Err(NoAnswer::Contradiction)
        }
    }

    /// The links' amounts together.
    pub fn sum(&self) -> u64 {
        self.links.iter().map(|link| u64::from(link.amount)).sum()
    }
}

/// The chain as the library finds it, if the library's checker accepts it.
fn links(file: &StreamFile, arrivals: &[u32], slot: u32) -> Result<Vec<Link>, NoAnswer> {
    let (table, delay, buffer) = (&file.table, file.header.delay, file.header.buffer);
    let [mut slots, mut marks, mut amounts] = [(); 3].map(|()| vec![0; arrivals.len() + 1]);
    let lists = ChainLists {
        slots: &mut slots,
        marks: &mut marks,
        amounts: &mut amounts,
    };
    let places = find_chain(table, delay, buffer, arrivals, slot, lists)?;
    let chain = Chain {
        slots: &slots,
        marks: &marks,
        amounts: &amounts,
        places,
    };
    if !check_chain(table, delay, buffer, arrivals, slot, chain)? {
        return Err(NoAnswer::Contradiction);
    }
    (1..places as usize)
        .map(|place| {
            let (first, last) = (slots[place - 1], slots[place]);
            let bound = Bound::marked(marks[place], file, arrivals, first, last)?;
            Ok(Link {
                first,
                last,
                bound,
                amount: amounts[place],
            })
        })
        .collect()
}

/// What the whole-trace run admits and drops by the slot.
fn totals(file: &StreamFile, arrivals: &[u32], slot: u32) -> Result<[u64; 2], Refusal> {
    let run = Run::of(&file.table, file.header.limits(), arrivals)?;
    Ok([run.admitted, run.dropped].map(|list| sum(&list[..slot as usize])))
}

impl fmt::Display for Why {
    fn fmt(&self, out: &mut fmt::Formatter<'_>) -> fmt::Result {
        for link in &self.links {
            writeln!(out, "{link}")?;
        }
        let (slot, sum) = (self.slot, self.sum());
        writeln!(out, "sum {sum}, X({slot}) = {}", self.admitted)?;
        writeln!(out, "arrived {}, lost {}", self.arrived, self.lost)
    }
}
