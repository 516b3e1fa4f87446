//! Certificates beside the run and the longest chain of the same trace.

use super::{Done, Report};
use crate::cases::LAST_WINDOWS;
use crate::certificates::{Asked, Case, TRACES};
use crate::chains::Trace;
use crate::clock::{Timed, Work};
use crate::shown::{duration, grouped};

const ROUNDS: usize = 41;
const CERTIFY_AIM: f64 = 3.0;
const CERTIFY_RUN_AIM: f64 = 300.0;
const CHECK_AIM: f64 = 5.0;

impl Report<'_> {
    pub(super) fn certificates(&mut self) -> Done {
        self.head(
            &format!("The certificate of 4,096 slots, medians of {ROUNDS} rounds"),
            &["L", "Trace"],
            &[
                "Links of the longest chain",
                "Given",
                "Checked",
                "The run",
                "The longest chain found",
                "Given / longest chain",
                "Given / run",
                "Checked / run",
            ],
        )?;
        let (mut to_runs, mut checked) = (0.0_f64, 0.0_f64);
        for trace in TRACES {
            let mut given = 0.0_f64;
            for last_window in LAST_WINDOWS {
                let [to_chain, to_run, check] = self.certificate_row(last_window, trace)?;
                given = to_chain.max(given);
                to_runs = to_run.max(to_runs);
                checked = check.max(checked);
            }
            let what = format!(
                "A certificate given, {}, to the longest chain",
                trace.name()
            );
            self.aim(what, CERTIFY_AIM, given);
        }
        let what = String::from("A certificate given, to the run");
        self.aim(what, CERTIFY_RUN_AIM, to_runs);
        let what = String::from("A certificate checked, to the run");
        self.aim(what, CHECK_AIM, checked);
        Ok(())
    }

    /// The ratios of giving it to finding the longest chain and to the run, and of checking it to the run.
    fn certificate_row(&mut self, last_window: usize, trace: Trace) -> Result<[f64; 3], String> {
        let links = Asked::new(trace, last_window)?.links();
        let works: Result<Vec<Work<'_>>, String> = Case::row(trace, last_window)
            .into_iter()
            .map(Case::work)
            .collect();
        let timed = Timed::of_rounds(ROUNDS, &mut works?);
        let [to_chain, given, checked] =
            [(0, 3), (0, 2), (1, 2)].map(|(work, to)| timed.ratio(work, to));
        let mut cells = vec![last_window.to_string(), String::from(trace.name())];
        cells.push(grouped(links.into()));
        cells.extend([0, 1, 2, 3].map(|work| duration(timed.time(work))));
        cells.extend([to_chain, given, checked].map(|ratio| format!("{ratio:.1}")));
        self.row(&cells)?;
        Ok([to_chain, given, checked])
    }

    /// Instructions of the same.
    pub(super) fn count_certificates(&mut self) -> Done {
        self.head(
            "Instructions of certificates of 4,096 slots, counted by callgrind",
            &["L", "Trace"],
            &[
                "Given",
                "Checked",
                "The run",
                "The longest chain found",
                "Given / longest chain",
                "Given / run",
                "Checked / run",
            ],
        )?;
        for trace in TRACES {
            for last_window in LAST_WINDOWS {
                let works = Case::row(trace, last_window).map(|case| case.to_string());
                self.count_trace(trace, last_window, works, &[(0, 3), (0, 2), (1, 2)])?;
            }
        }
        Ok(())
    }
}
