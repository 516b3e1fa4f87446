//! A certificate as it is printed: a line for each slot, and how many slots are certified.

use std::fmt;

use bezhantiru::{CertificateLists, Refusal, certify};
use reference::layout::StreamFile;

use super::printed::{number, numbers};
use crate::accepted;
use crate::trace::Run;

pub const HEADING: &str = "slot admitted from by amount departed from amount";

/// The marks, and their words.
pub const ARRIVALS: u32 = 1;
pub const DELAY: u32 = 2;
const MARKS: [&str; 3] = ["arrivals", "delay", "buffer"];
/// What stands three times where a slot has no admitted link.
const NONE: &str = "-";

/// The packets admitted and departed by a slot, each with its link.
#[derive(Clone, Debug, PartialEq, Eq)]
pub struct Slot {
    pub admitted: u64,
    pub admitted_link: Option<AdmittedLink>,
    pub departed: u64,
    pub departed_link: DepartedLink,
}

#[derive(Clone, Copy, Debug, PartialEq, Eq)]
pub struct AdmittedLink {
    /// The slot that it starts from.
    pub first: u64,
    /// 1, 2 or 3
    pub mark: u32,
    pub amount: u64,
}

impl AdmittedLink {
    pub fn word(&self) -> &'static str {
        MARKS[self.mark as usize - 1]
    }
}

#[derive(Clone, Copy, Debug, PartialEq, Eq)]
pub struct DepartedLink {
    pub first: u64,
    pub amount: u64,
}

impl Slot {
    /// What the fields of its line say, without the first.
    pub fn read(fields: &[&str]) -> Option<Slot> {
        let [admitted, first, mark, amount, ref departed @ ..] = *fields else {
            return None;
        };
        let admitted_link = if [first, mark, amount] == [NONE; 3] {
            None
        } else {
            let place = MARKS.iter().position(|word| *word == mark)?;
            Some(AdmittedLink {
                first: number(first)?,
                mark: place as u32 + 1,
                amount: number(amount)?,
            })
        };
        let admitted = number(admitted)?;
        let [departed, first, amount] = numbers(departed)?;
        Some(Slot {
            admitted,
            admitted_link,
            departed,
            departed_link: DepartedLink { first, amount },
        })
    }
}

impl fmt::Display for Slot {
    fn fmt(&self, out: &mut fmt::Formatter<'_>) -> fmt::Result {
        write!(out, "{} ", self.admitted)?;
        match &self.admitted_link {
            Some(link) => {
                write!(out, "{} {} {}", link.first, link.word(), link.amount)?;
            }
            None => write!(out, "{NONE} {NONE} {NONE}")?,
        }
        let DepartedLink { first, amount } = self.departed_link;
        write!(out, " {} {first} {amount}", self.departed)
    }
}

/// Which of slots 0, 1, .. are certified: those whose admitted links lead back to slot 0 through slots
/// that all have one. Links start from earlier slots.
fn counting(slots: &[Slot]) -> Vec<bool> {
    let mut counts = vec![true];
    for slot in slots {
        let link = slot.admitted_link;
        counts.push(link.is_some_and(|link| counts[link.first as usize]));
    }
    counts
}

/// How many slots are certified.
pub fn certified(slots: &[Slot]) -> usize {
    let counts = counting(slots);
    counts[1..].iter().filter(|counts| **counts).count()
}

/// The last line.
pub fn last_line(certified: usize, slots: usize) -> String {
    format!("certified {certified} of {slots} slots")
}

/// The totals of counts by slots 0, 1, ..
pub fn totals(counts: &[u32]) -> Vec<u64> {
    let mut totals = vec![0];
    for &count in counts {
        totals.push(totals[totals.len() - 1] + u64::from(count));
    }
    totals
}

/// What the library finds for its own run.
#[derive(Clone, Debug, PartialEq, Eq)]
pub struct Certificate {
    /// 1, 2, ..
    pub slots: Vec<Slot>,
}

impl Certificate {
    /// That of a stream file, or the first refusal of the file, 23.
    pub fn of_file(file: &[u8]) -> Result<Certificate, Refusal> {
        let file = accepted(file)?;
        let arrivals = file.arrivals();
        let run = Run::of(&file.table, file.header.limits(), &arrivals)?;
        let [u, v] = [run.admitted, run.departed].map(|counts| totals(&counts));
        let [admitted_from, admitted_by, departed_from] = found_links(&file, &arrivals)?;
        let admitted_link = |slot: usize| {
            let (first, mark) = (admitted_from[slot - 1], admitted_by[slot - 1]);
            (mark > 0).then(|| AdmittedLink {
                first: first.into(),
                mark,
                amount: u[slot] - u[first as usize],
            })
        };
        let departed_link = |slot: usize| {
            let first = departed_from[slot - 1];
            DepartedLink {
                first: first.into(),
                amount: v[slot] - u[first as usize],
            }
        };
        let slot = |slot: usize| Slot {
            admitted: u[slot],
            admitted_link: admitted_link(slot),
            departed: v[slot],
            departed_link: departed_link(slot),
        };
        Ok(Certificate {
            slots: (1..=arrivals.len()).map(slot).collect(),
        })
    }

    /// How many slots are certified, as the last line says.
    pub fn certified(&self) -> usize {
        certified(&self.slots)
    }

    /// Which of slots 0, 1, .. are.
    pub fn counting(&self) -> Vec<bool> {
        counting(&self.slots)
    }
}

/// The links of the run: first slots and marks of the admitted ones, and first slots of the departed ones.
fn found_links(file: &StreamFile, arrivals: &[u32]) -> Result<[Vec<u32>; 3], Refusal> {
    let (delay, buffer) = file.header.limits();
    let mut found = [(); 3].map(|()| vec![0; arrivals.len()]);
    let [admitted_from, admitted_by, departed_from] = &mut found;
    let lists = CertificateLists {
        admitted_from,
        admitted_by,
        departed_from,
    };
    certify(&file.table, delay, buffer, arrivals, lists)?;
    Ok(found)
}

impl fmt::Display for Certificate {
    fn fmt(&self, out: &mut fmt::Formatter<'_>) -> fmt::Result {
        writeln!(out, "{HEADING}")?;
        for (number, slot) in (1..).zip(&self.slots) {
            writeln!(out, "{number} {slot}")?;
        }
        let last = last_line(self.certified(), self.slots.len());
        writeln!(out, "{last}")
    }
}
