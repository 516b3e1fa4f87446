//! Certificates of the longest trace, given and checked, beside the run and the longest chain of the same
//! trace: the library alone, since nobody else has certificates.

use std::fmt;
use std::hint::black_box;

use bezhantiru::{
    Certificate, CertificateLists, Checked, NO_DELAY, Refusal, Rows, certify, check_certificate,
};

use crate::chains::{self, SLOTS, Trace, lists, rows};
use crate::clock::Work;
use crate::samples;

pub const TRACES: [Trace; 4] = [
    Trace::Lossless,
    Trace::OneLoss,
    Trace::Sample,
    Trace::EverySlot,
];

#[derive(Clone, Copy, Debug, PartialEq, Eq)]
pub enum Job {
    /// The certificate of our run given.
    Certify,
    /// It is checked beside our rows.
    Check,
    /// The run of the same trace.
    Run,
    /// The longest chain of the same trace found.
    Chain,
}

pub const JOBS: [Job; 4] = [Job::Certify, Job::Check, Job::Run, Job::Chain];

/// One job over a trace of 4,096 slots, of which the last are empty where there is a delay limit, so that
/// every slot has its links.
#[derive(Clone, Copy, Debug, PartialEq, Eq)]
pub struct Case {
    pub job: Job,
    pub trace: Trace,
    pub last_window: usize,
}

impl Case {
    /// A trace's jobs in turn.
    pub fn row(trace: Trace, last_window: usize) -> [Case; 4] {
        JOBS.map(|job| Case {
            job,
            trace,
            last_window,
        })
    }

    pub fn all() -> Vec<Case> {
        rows(TRACES)
            .flat_map(|(trace, last_window)| Case::row(trace, last_window))
            .collect()
    }

    /// The work, ready to be done again and again.
    pub fn work(self) -> Result<Work<'static>, String> {
        let asked = Asked::new(self.trace, self.last_window)?;
        let (mut lists, mut longer) = (lists(SLOTS), lists(SLOTS + 1));
        Ok(match self.job {
            Job::Certify => Box::new(move || {
                let _ = black_box(black_box(&asked).certify(&mut lists));
            }),
            Job::Check => Box::new(move || {
                let _ = black_box(black_box(&asked).check());
            }),
            Job::Run => Box::new(move || {
                let _ = black_box(black_box(&asked).longest.run(&mut lists));
            }),
            Job::Chain => Box::new(move || {
                let _ = black_box(black_box(&asked).longest.find(&mut longer));
            }),
        })
    }
}

impl fmt::Display for Case {
    fn fmt(&self, out: &mut fmt::Formatter<'_>) -> fmt::Result {
        let job = match self.job {
            Job::Certify => "certify",
            Job::Check => "check-certificate",
            Job::Run => "run-certified",
            Job::Chain => "longest-chain",
        };
        write!(out, "{job}-L{}-{}", self.last_window, self.trace.word())
    }
}

/// A set-up with a trace, its longest chain, our rows and their certificate.
#[derive(Debug)]
pub struct Asked {
    longest: chains::Asked,
    rows: [Vec<u32>; 3],
    links: [Vec<u32>; 3],
}

impl Asked {
    /// Ends with a problem unless our rows are certified and the longest chain's links are among the
    /// certificate's.
    pub fn new(trace: Trace, last_window: usize) -> Result<Asked, String> {
        let table = samples::table(last_window);
        let (limits, mut arrivals) = trace.numbers(&table, SLOTS);
        if limits.0 != NO_DELAY {
            arrivals[SLOTS - limits.0 as usize..].fill(0);
        }
        let last = chains::Asked::of_slot(table, limits, arrivals, SLOTS)?;
        let mut asked = Asked {
            longest: last,
            rows: lists(SLOTS),
            links: lists(SLOTS),
        };
        let settled = asked.settle().map_err(|refusal| refusal.to_string())?;
        if !settled {
            return Err(format!("{trace:?}, L {last_window}: not certified"));
        }
        let (slot, links) = asked.most_links();
        let chains::Asked {
            table,
            limits,
            arrivals,
            ..
        } = asked.longest;
        let longest = chains::Asked::of_slot(table, limits, arrivals, slot)?;
        if longest.links() != links {
            return Err(format!("{trace:?}, L {last_window}: other links"));
        }
        Ok(Asked { longest, ..asked })
    }

    /// Gives the rows and their certificate, and tells whether they are certified.
    fn settle(&mut self) -> Result<bool, Refusal> {
        let (mut rows, mut links) = (lists(SLOTS), lists(SLOTS));
        self.longest.run(&mut rows)?;
        self.certify(&mut links)?;
        (self.rows, self.links) = (rows, links);
        Ok(self.check()? == Checked::Certified)
    }

    /// The slot whose links lead back to slot 0 by the most links, of those whose deadlines lie in the
    /// trace.
    fn most_links(&self) -> (usize, u32) {
        let mut links = vec![0];
        for &first in &self.links[0] {
            links.push(links[first as usize] + 1);
        }
        let due = match self.longest.limits.0 {
            NO_DELAY => SLOTS,
            delay => SLOTS - delay as usize,
        };
        let by_links = (0..=due).map(|slot| (links[slot], slot));
        by_links.max().map_or((0, 0), |(links, slot)| (slot, links))
    }

    /// The links of the longest chain.
    pub fn links(&self) -> u32 {
        self.longest.links()
    }

    fn certify(&self, lists: &mut [Vec<u32>; 3]) -> Result<(), Refusal> {
        let chains::Asked {
            table,
            limits: (delay, buffer),
            arrivals,
            ..
        } = &self.longest;
        let [admitted_from, admitted_by, departed_from] = lists;
        let lists = CertificateLists {
            admitted_from,
            admitted_by,
            departed_from,
        };
        certify(table, *delay, *buffer, arrivals, lists)
    }

    fn check(&self) -> Result<Checked, Refusal> {
        let chains::Asked {
            table,
            limits: (delay, buffer),
            arrivals,
            ..
        } = &self.longest;
        let [admitted, _, departed] = &self.rows;
        let [admitted_from, admitted_by, departed_from] = &self.links;
        let links = Certificate {
            admitted_from,
            admitted_by,
            departed_from,
        };
        let rows = Rows { admitted, departed };
        check_certificate(table, *delay, *buffer, arrivals, rows, links)
    }
}

#[cfg(test)]
mod tests {
    use super::*;
    use crate::cases::LAST_WINDOWS;

    #[test]
    fn traces_have_the_links_they_are_timed_for() {
        for last_window in LAST_WINDOWS {
            let links = TRACES.map(|trace| Asked::new(trace, last_window).map(|it| it.links()));
            let [lossless, one_loss, sample, every_slot] = links;
            assert_eq!((lossless, every_slot), (Ok(1), Ok(4_096)));
            assert!(one_loss.is_ok_and(|links| (2..5).contains(&links)));
            assert!(sample.is_ok_and(|links| (50..1_000).contains(&links)));
        }
    }
}
