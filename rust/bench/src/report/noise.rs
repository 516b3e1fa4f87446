//! How far apart two equal sides are measured.

use super::{Done, LONGEST, Report, timed};
use crate::cases::{Case, DELAYS, LAST_WINDOWS, RUN_DELAY, Side};

impl Report<'_> {
    /// Two equal sides, which a perfect clock would find alike.
    pub(super) fn control(&mut self) -> Done {
        self.head(
            "Noise: the Rust side beside itself, compiled twice",
            &["Work"],
            &["L 1", "L 8", "L 64"],
        )?;
        let live = |side, last_window| Case::live(side, last_window, DELAYS[1]);
        let run = |side, last_window| Case::run(side, last_window, RUN_DELAY, LONGEST);
        self.control_row("A live slot, d 8", live)?;
        self.control_row("A slot of a run of 4,096", run)
    }

    fn control_row(&mut self, name: &str, case: impl Fn(Side, usize) -> Case) -> Done {
        let mut cells = vec![String::from(name)];
        for last_window in LAST_WINDOWS {
            let all = [Side::Again, Side::Rust].map(|side| case(side, last_window));
            cells.push(format!("{:.2}", timed(&all)?.ratio(0, 1)));
        }
        self.row(&cells)
    }
}
