//! Chains of the longest trace, found and checked: the library alone, since nobody has another finder.

use std::fmt;
use std::hint::black_box;

use bezhantiru::{Chain, ChainLists, Lists, NO_BUFFER, Refusal, check_chain, find_chain, run};

use crate::cases::LAST_WINDOWS;
use crate::clock::Work;
use crate::samples;

pub(crate) const SLOTS: usize = 4_096;

/// A trace by what its last slot's chain is like.
#[derive(Clone, Copy, Debug, PartialEq, Eq)]
pub enum Trace {
    /// Nothing is lost: one link.
    Lossless,
    /// That of the whole-trace runs, with its limits.
    Sample,
    /// As much as the envelope lets depart at once, and as much again, in every other slot: each slot
    /// is a link of its own, so that the chain has as many as there can be.
    EverySlot,
    /// Nothing is lost but for one slot half-way: every later slot's link starts there.
    OneLoss,
}

/// Those whose last slot's chain is found and checked.
pub const TRACES: [Trace; 3] = [Trace::Lossless, Trace::Sample, Trace::EverySlot];

/// Each trace at every L.
pub(crate) fn rows<const N: usize>(traces: [Trace; N]) -> impl Iterator<Item = (Trace, usize)> {
    LAST_WINDOWS
        .into_iter()
        .flat_map(move |last_window| traces.map(|trace| (trace, last_window)))
}

impl Trace {
    pub fn name(self) -> &'static str {
        match self {
            Trace::Lossless => "nothing lost",
            Trace::Sample => "the runs' trace",
            Trace::EverySlot => "a loss in every other slot",
            Trace::OneLoss => "a loss half-way",
        }
    }

    /// The name as a word of a case's.
    pub(crate) fn word(self) -> String {
        self.name().replace(' ', "-").replace('\'', "")
    }

    /// The limits, and so many slots.
    pub(crate) fn numbers(self, table: &[u32], slots: usize) -> ((u32, u32), Vec<u32>) {
        let at_once = table[1];
        match self {
            Trace::Lossless => ((0, NO_BUFFER), vec![at_once / 8; slots]),
            Trace::Sample => ((8, 60), samples::arrivals(table, slots)),
            Trace::EverySlot => ((0, 1_000_000), [2 * at_once, 0].repeat(slots / 2)),
            Trace::OneLoss => {
                let mut arrivals = vec![at_once / 8; slots];
                arrivals[slots / 2] = 2 * at_once;
                ((0, NO_BUFFER), arrivals)
            }
        }
    }
}

#[derive(Clone, Copy, Debug, PartialEq, Eq)]
pub enum Job {
    /// The last slot's chain found.
    Find,
    /// It is checked.
    Check,
    /// The run of the same trace.
    Run,
}

pub const JOBS: [Job; 3] = [Job::Find, Job::Check, Job::Run];

/// One job over a trace of 4,096 slots.
#[derive(Clone, Copy, Debug, PartialEq, Eq)]
pub struct Case {
    pub job: Job,
    pub trace: Trace,
    pub last_window: usize,
}

impl Case {
    /// A trace's jobs in turn.
    pub fn row(trace: Trace, last_window: usize) -> [Case; 3] {
        JOBS.map(|job| Case {
            job,
            trace,
            last_window,
        })
    }

    pub fn all() -> Vec<Case> {
        rows(TRACES)
            .flat_map(|(trace, last_window)| Case::row(trace, last_window))
            .collect()
    }

    /// The work, ready to be done again and again.
    pub fn work(self) -> Result<Work<'static>, String> {
        let asked = Asked::new(self.trace, self.last_window)?;
        let (mut found, mut rows) = (lists(SLOTS + 1), lists(SLOTS));
        Ok(match self.job {
            Job::Find => Box::new(move || {
                let _ = black_box(black_box(&asked).find(&mut found));
            }),
            Job::Check => Box::new(move || {
                let _ = black_box(black_box(&asked).check());
            }),
            Job::Run => Box::new(move || {
                let _ = black_box(black_box(&asked).run(&mut rows));
            }),
        })
    }
}

impl fmt::Display for Case {
    fn fmt(&self, out: &mut fmt::Formatter<'_>) -> fmt::Result {
        let job = match self.job {
            Job::Find => "find-chain",
            Job::Check => "check-chain",
            Job::Run => "run-chained",
        };
        write!(out, "{job}-L{}-{}", self.last_window, self.trace.word())
    }
}

/// A set-up with a trace, and the chain of one of its slots.
#[derive(Debug)]
pub struct Asked {
    pub(crate) table: Vec<u32>,
    pub(crate) limits: (u32, u32),
    pub(crate) arrivals: Vec<u32>,
    slot: usize,
    found: [Vec<u32>; 3],
    places: u32,
}

impl Asked {
    /// The last slot's. Ends with a problem unless the chain found is accepted and its sum is what the run
    /// admits.
    pub fn new(trace: Trace, last_window: usize) -> Result<Asked, String> {
        let table = samples::table(last_window);
        let (limits, arrivals) = trace.numbers(&table, SLOTS);
        let asked = Asked::of_slot(table, limits, arrivals, SLOTS);
        asked.map_err(|problem| format!("{trace:?}, L {last_window}: {problem}"))
    }

    /// The same for any slot of a trace.
    pub(crate) fn of_slot(
        table: Vec<u32>,
        limits: (u32, u32),
        arrivals: Vec<u32>,
        slot: usize,
    ) -> Result<Asked, String> {
        let mut asked = Asked {
            found: lists(arrivals.len() + 1),
            places: 0,
            table,
            limits,
            arrivals,
            slot,
        };
        match asked.settle() {
            Ok(true) => Ok(asked),
            Ok(false) => Err(String::from("a wrong chain")),
            Err(refusal) => Err(refusal.to_string()),
        }
    }

    /// Finds the chain, and tells whether it explains what the run admits.
    fn settle(&mut self) -> Result<bool, Refusal> {
        let mut found = lists(self.arrivals.len() + 1);
        self.places = self.find(&mut found)?;
        self.found = found;
        let mut rows = lists(self.arrivals.len());
        self.run(&mut rows)?;
        let sum = |list: &[u32]| list.iter().copied().map(u64::from).sum::<u64>();
        let amounts = &self.found[2][..self.places as usize];
        Ok(sum(amounts) == sum(&rows[0][..self.slot]) && self.check()?)
    }

    pub fn links(&self) -> u32 {
        self.places - 1
    }

    pub(crate) fn find(&self, [slots, marks, amounts]: &mut [Vec<u32>; 3]) -> Result<u32, Refusal> {
        let (delay, buffer) = self.limits;
        let lists = ChainLists {
            slots,
            marks,
            amounts,
        };
        let slot = self.slot as u32;
        find_chain(&self.table, delay, buffer, &self.arrivals, slot, lists)
    }

    fn check(&self) -> Result<bool, Refusal> {
        let (delay, buffer) = self.limits;
        let [slots, marks, amounts] = &self.found;
        let chain = Chain {
            slots,
            marks,
            amounts,
            places: self.places,
        };
        let slot = self.slot as u32;
        check_chain(&self.table, delay, buffer, &self.arrivals, slot, chain)
    }

    pub(crate) fn run(
        &self,
        [admitted, dropped, departed]: &mut [Vec<u32>; 3],
    ) -> Result<(), Refusal> {
        let (delay, buffer) = self.limits;
        let lists = Lists {
            admitted,
            dropped,
            departed,
        };
        run(&self.table, delay, buffer, &self.arrivals, lists)
    }
}

pub(crate) fn lists(length: usize) -> [Vec<u32>; 3] {
    [(); 3].map(|()| vec![0; length])
}

#[cfg(test)]
mod tests {
    use super::*;

    #[test]
    fn traces_have_the_links_they_are_timed_for() {
        for last_window in LAST_WINDOWS {
            let links = TRACES.map(|trace| Asked::new(trace, last_window).map(|it| it.links()));
            let [lossless, sample, every_slot] = links;
            assert_eq!((lossless, every_slot), (Ok(1), Ok(4_096)));
            assert!(sample.is_ok_and(|links| (50..1_000).contains(&links)));
        }
    }
}
