//! The smallest limits of a trace, beside its run.

use super::{Done, Report, timed};
use crate::cases::{Case, LAST_WINDOWS};
use crate::shown::duration;

/// As many runs of the trace were asked for at most: those of a search by halving, and the answer's.
const BUFFER_AIM: f64 = 21.0;
const DELAY_AIM: f64 = 8.0;

impl Report<'_> {
    pub(super) fn sizes(&mut self) -> Done {
        self.head(
            "The smallest limits of a trace of 4,096 slots, beside its run",
            &["L"],
            &[
                "Smallest buffer",
                "Smallest delay limit",
                "Run",
                "Buffer / run",
                "Delay limit / run",
            ],
        )?;
        for last_window in LAST_WINDOWS {
            let timed = timed(&Case::sizes(last_window))?;
            let ratios = [0, 1].map(|case| timed.ratio(case, 2));
            let mut cells = vec![last_window.to_string()];
            cells.extend([0, 1, 2].map(|case| duration(timed.time(case))));
            cells.extend(ratios.map(|ratio| format!("{ratio:.1}")));
            self.row(&cells)?;
            let what = |limit: &str| format!("The smallest {limit}, L {last_window}, to a run");
            self.aim(what("buffer"), BUFFER_AIM, ratios[0]);
            self.aim(what("delay limit"), DELAY_AIM, ratios[1]);
        }
        Ok(())
    }
}
