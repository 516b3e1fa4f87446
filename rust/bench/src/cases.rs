//! What is measured: each case is one piece of work of one side.

use std::fmt;

use bezhantiru::NO_DELAY;

use crate::samples;
use crate::shown::limit;

pub const LAST_WINDOWS: [usize; 3] = [1, 8, 64];
pub const DELAYS: [u32; 4] = [0, 8, 64, NO_DELAY];
pub const TRACE_SLOTS: [usize; 6] = [64, 256, BASE_SLOTS, 1_024, 2_048, 4_096];
/// The trace whose slots are set beside those of longer and shorter ones.
pub const BASE_SLOTS: usize = 512;
/// The slots of the runs with the table 0,1.
pub const NARROW_SLOTS: [usize; 2] = [2_048, 4_096];
pub const LAST_QUESTION: u32 = 4_160;

/// The stages of the paths' runs, their slots, and the delays that those are under.
pub const STAGES: [usize; 3] = [1, 2, 4];
pub const PATH_SLOTS: [usize; 2] = [512, 4_096];
pub const PATH_DELAYS: [u32; 2] = [RUN_DELAY, NO_DELAY];
/// The delays that runs under a square are under; with one of them, no slot is left.
pub const SQUARE_DELAYS: [u32; 4] = [0, 8, NO_DELAY, LAST_SLOT];
/// The last slot of a square.
const LAST_SLOT: u32 = 32;
/// The delay that all other runs are under.
pub const RUN_DELAY: u32 = 8;

pub(crate) const LIVE_SLOTS: usize = 1_024;
const BUFFER: u32 = 60;

/// Who does the work.
#[derive(Clone, Copy, Debug, PartialEq, Eq)]
pub enum Side {
    /// The proved library; its live slot is the one over lent parts.
    Library,
    /// The library's preview of a live slot, over lent parts too.
    Preview,
    /// The library's live slot over a regulator that is lent whole.
    Whole,
    /// The same algorithm in Rust, in place.
    Rust,
    /// The fastest run in Rust.
    Sliding,
    /// The side `Rust` compiled once more.
    Again,
}

#[derive(Clone, Copy, Debug, PartialEq, Eq)]
pub enum Job {
    /// Slots of a live regulator.
    Live,
    /// A whole-trace run of so many slots, its set-up included.
    Run(usize),
    /// The same through so many stages in a row.
    Path { stages: usize, slots: usize },
    /// The same under the square made from the table.
    Square(usize),
    /// The smallest limit with which a trace of so many slots loses no more than its run.
    Size { sought: Sought, slots: usize },
    /// The envelope at its last window.
    Question,
}

/// The limit that is sought; the other one is given.
#[derive(Clone, Copy, Debug, PartialEq, Eq)]
pub enum Sought {
    Buffer,
    Delay,
}

/// One side's work under a table, d and q.
#[derive(Clone, Debug)]
pub struct Case {
    pub side: Side,
    pub job: Job,
    pub(crate) table: Vec<u32>,
    pub(crate) delay: u32,
    pub(crate) buffer: u32,
}

impl Case {
    pub fn live(side: Side, last_window: usize, delay: u32) -> Case {
        Case {
            side,
            job: Job::Live,
            table: samples::table(last_window),
            delay,
            buffer: BUFFER,
        }
    }

    pub fn run(side: Side, last_window: usize, delay: u32, slots: usize) -> Case {
        Case {
            job: Job::Run(slots),
            ..Case::live(side, last_window, delay)
        }
    }

    /// The library's run through stages whose least entries are those of the run's table.
    pub fn path(stages: usize, last_window: usize, delay: u32, slots: usize) -> Case {
        Case {
            job: Job::Path { stages, slots },
            ..Case::live(Side::Library, last_window, delay)
        }
    }

    /// The library's runs of as many slots as a square has under a delay, under the table's square and
    /// under the table.
    pub fn squares(last_window: usize, delay: u32) -> [Case; 2] {
        let ahead = if delay == NO_DELAY { 0 } else { delay };
        let slots = (LAST_SLOT - ahead) as usize;
        let table = Case::run(Side::Library, last_window, delay, slots);
        let square = Case {
            job: Job::Square(slots),
            ..table.clone()
        };
        [square, table]
    }

    /// The library's smallest buffer limit, its smallest delay limit and its run of the same trace.
    pub fn sizes(last_window: usize) -> [Case; 3] {
        let slots = TRACE_SLOTS[TRACE_SLOTS.len() - 1];
        let run = Case::run(Side::Library, last_window, RUN_DELAY, slots);
        let [buffer, delay] = [Sought::Buffer, Sought::Delay].map(|sought| Case {
            job: Job::Size { sought, slots },
            ..run.clone()
        });
        [buffer, delay, run]
    }

    /// One packet a slot, nothing waiting.
    pub fn narrow(side: Side, slots: usize) -> Case {
        Case {
            side,
            job: Job::Run(slots),
            table: vec![0, 1],
            delay: 0,
            buffer: 9,
        }
    }

    pub fn question(side: Side, last_window: usize) -> Case {
        Case {
            job: Job::Question,
            ..Case::live(side, last_window, RUN_DELAY)
        }
    }

    /// Every case that is measured.
    pub fn all() -> Vec<Case> {
        let mut all = Vec::new();
        for last_window in LAST_WINDOWS {
            for delay in DELAYS {
                all.extend(SLOTS.map(|side| Case::live(side, last_window, delay)));
            }
            for slots in TRACE_SLOTS {
                all.extend(RUNS.map(|side| Case::run(side, last_window, RUN_DELAY, slots)));
            }
            all.extend(Case::paths(last_window));
            for delay in SQUARE_DELAYS {
                all.extend(Case::squares(last_window, delay));
            }
            all.extend(Case::sizes(last_window).into_iter().take(2));
            all.extend(QUESTIONS.map(|side| Case::question(side, last_window)));
        }
        for slots in NARROW_SLOTS {
            all.extend(RUNS.map(|side| Case::narrow(side, slots)));
        }
        all
    }

    /// Paths, and one regulator without a delay limit, which only they are measured beside.
    fn paths(last_window: usize) -> Vec<Case> {
        let mut all = Vec::new();
        for slots in PATH_SLOTS {
            all.push(Case::run(Side::Library, last_window, NO_DELAY, slots));
            for delay in PATH_DELAYS {
                all.extend(STAGES.map(|stages| Case::path(stages, last_window, delay, slots)));
            }
        }
        all
    }

    /// The stream file of a run.
    pub fn stream(&self) -> Option<Vec<u8>> {
        let Job::Run(slots) = self.job else {
            return None;
        };
        let arrivals = samples::arrivals(&self.table, slots);
        let limits = (self.delay, self.buffer);
        Some(samples::stream(&self.table, limits, &arrivals))
    }

    /// Into how many parts a measure is divided: a run's or a regulator's slots.
    pub fn parts(&self) -> usize {
        match self.job {
            Job::Live => LIVE_SLOTS,
            Job::Run(slots) | Job::Path { slots, .. } => slots,
            Job::Square(_) | Job::Size { .. } | Job::Question => 1,
        }
    }
}

/// The sides that take or preview live slots, that run, and that are asked, the Rust side last or
/// next to it.
pub const SLOTS: [Side; 4] = [Side::Library, Side::Preview, Side::Whole, Side::Rust];
pub const RUNS: [Side; 3] = [Side::Library, Side::Rust, Side::Sliding];
pub const QUESTIONS: [Side; 2] = [Side::Library, Side::Rust];

impl fmt::Display for Case {
    fn fmt(&self, out: &mut fmt::Formatter<'_>) -> fmt::Result {
        let side = match self.side {
            Side::Library => "library",
            Side::Preview => "preview",
            Side::Whole => "whole",
            Side::Rust => "rust",
            Side::Sliding => "sliding",
            Side::Again => "again",
        };
        let last_window = self.table.len() - 1;
        match self.job {
            Job::Live => write!(out, "live-{side}-L{last_window}-d{}", limit(self.delay)),
            Job::Run(slots) => {
                let (delay, buffer) = (limit(self.delay), self.buffer);
                write!(out, "run-{side}-L{last_window}-d{delay}-q{buffer}-{slots}")
            }
            Job::Path { stages, slots } => {
                let delay = limit(self.delay);
                write!(out, "path-{stages}-L{last_window}-d{delay}-{slots}")
            }
            Job::Square(slots) => {
                let delay = limit(self.delay);
                write!(out, "square-L{last_window}-d{delay}-{slots}")
            }
            Job::Size { sought, slots } => {
                let name = match sought {
                    Sought::Buffer => "buffer",
                    Sought::Delay => "delay",
                };
                write!(out, "smallest-{name}-L{last_window}-{slots}")
            }
            Job::Question => write!(out, "question-{side}-L{last_window}"),
        }
    }
}
