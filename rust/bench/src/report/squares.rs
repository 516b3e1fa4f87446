//! Runs under an envelope that varies with time, beside those of the table that it is made from.

use super::{Done, Report, timed};
use crate::cases::{Case, LAST_WINDOWS, SQUARE_DELAYS};
use crate::shown::{duration, limit};

impl Report<'_> {
    pub(super) fn squares(&mut self) -> Done {
        self.head(
            "A whole run under a square made from a table, of as many slots as it has",
            &["L", "d"],
            &["Slots", "Square", "Table", "Square / table"],
        )?;
        for last_window in LAST_WINDOWS {
            for delay in SQUARE_DELAYS {
                let all = Case::squares(last_window, delay);
                let timed = timed(&all)?;
                let slots = all[1].parts();
                let mut cells = vec![last_window.to_string(), limit(delay), slots.to_string()];
                cells.extend([0, 1].map(|case| duration(timed.time(case))));
                cells.push(format!("{:.2}", timed.ratio(0, 1)));
                self.row(&cells)?;
            }
        }
        Ok(())
    }
}
