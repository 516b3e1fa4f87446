//! Runs through regulators in a row, beside that of one regulator.

use super::{Done, Report, timed, times};
use crate::cases::{Case, LAST_WINDOWS, PATH_DELAYS, PATH_SLOTS, STAGES, Side};
use crate::shown::limit;
use bezhantiru::NO_DELAY;

/// A path's slot is to look at L windows once for each stage and twice for the entrance; one
/// regulator's does so twice, once where it has no delay limit.
fn most(stages: usize, delay: u32) -> f64 {
    let looks = if delay == NO_DELAY { 1 } else { 2 };
    (stages + 2) as f64 / f64::from(looks)
}

/// A slot of a long trace over one of a short trace.
const GROWTH_AIM: f64 = 1.1;

impl Report<'_> {
    pub(super) fn paths(&mut self) -> Done {
        self.head(
            "A slot of a path's run of 4,096 slots",
            &["L", "d", "Stages"],
            &[
                "Path",
                "One regulator",
                "Path / one regulator",
                "Path's slot / that of 512",
            ],
        )?;
        let mut longest_growth = 0.0_f64;
        for last_window in LAST_WINDOWS {
            for delay in PATH_DELAYS {
                for stages in STAGES {
                    let [ratio, growth] = self.path_row(last_window, delay, stages)?;
                    longest_growth = growth.max(longest_growth);
                    let d = limit(delay);
                    let what =
                        format!("A path of {stages}, L {last_window}, d {d}, to one regulator");
                    self.aim(what, most(stages, delay), ratio);
                }
            }
        }
        let what = String::from("A path's slot of 4,096 over one of 512");
        self.aim(what, GROWTH_AIM, longest_growth);
        Ok(())
    }

    /// The ratios of a path's slot to one regulator's, and of a long path's slot to a short one's.
    fn path_row(
        &mut self,
        last_window: usize,
        delay: u32,
        stages: usize,
    ) -> Result<[f64; 2], String> {
        let [short, long] = PATH_SLOTS;
        let all = [
            Case::path(stages, last_window, delay, long),
            Case::run(Side::Library, last_window, delay, long),
            Case::path(stages, last_window, delay, short),
        ];
        let timed = timed(&all)?;
        let growth = timed.ratio(0, 2) * short as f64 / long as f64;
        let ratios = [timed.ratio(0, 1), growth];
        let mut cells = vec![last_window.to_string(), limit(delay), stages.to_string()];
        cells.extend(times(&timed, &all).take(2));
        cells.extend(ratios.map(|ratio| format!("{ratio:.2}")));
        self.row(&cells)?;
        Ok(ratios)
    }
}
