//! The table of chains.

use super::{Done, Report};
use crate::cases::LAST_WINDOWS;
use crate::chains::{Asked, Case, TRACES, Trace};
use crate::clock::{Timed, Work};
use crate::shown::{duration, grouped};

const ROUNDS: usize = 41;
const FIND_AIM: f64 = 100.0;

impl Report<'_> {
    pub(super) fn chains(&mut self) -> Done {
        self.head(
            &format!("The chain of the last of 4,096 slots, medians of {ROUNDS} rounds"),
            &["L", "Trace"],
            &[
                "Links",
                "Found",
                "Checked",
                "The run",
                "Found / run",
                "Checked / run",
            ],
        )?;
        let mut worst = 0.0_f64;
        for last_window in LAST_WINDOWS {
            for trace in TRACES {
                worst = self.chain_row(last_window, trace)?.max(worst);
            }
        }
        self.aim(String::from("A chain found, to the run"), FIND_AIM, worst);
        Ok(())
    }

    /// The ratio of finding it to the run.
    fn chain_row(&mut self, last_window: usize, trace: Trace) -> Result<f64, String> {
        let links = Asked::new(trace, last_window)?.links();
        let works: Result<Vec<Work<'_>>, String> = Case::row(trace, last_window)
            .into_iter()
            .map(Case::work)
            .collect();
        let timed = Timed::of_rounds(ROUNDS, &mut works?);
        let mut cells = vec![last_window.to_string(), String::from(trace.name())];
        cells.push(grouped(links.into()));
        cells.extend([0, 1, 2].map(|work| duration(timed.time(work))));
        cells.extend([0, 1].map(|work| format!("{:.1}", timed.ratio(work, 2))));
        self.row(&cells)?;
        Ok(timed.ratio(0, 2))
    }
    /// Instructions of the same.
    pub(super) fn count_chains(&mut self) -> Done {
        self.head(
            "Instructions of the chain of the last of 4,096 slots, counted by callgrind",
            &["L", "Trace"],
            &[
                "Found",
                "Checked",
                "The run",
                "Found / run",
                "Checked / run",
            ],
        )?;
        for last_window in LAST_WINDOWS {
            for trace in TRACES {
                let works = Case::row(trace, last_window).map(|case| case.to_string());
                self.count_trace(trace, last_window, works, &[(0, 2), (1, 2)])?;
            }
        }
        Ok(())
    }
}
