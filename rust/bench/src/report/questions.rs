//! The envelope's questions.

use super::{Done, Report, timed, times};
use crate::cases::{Case, LAST_WINDOWS, QUESTIONS};

/// The ratios asked for at L 1, 8 and 64.
const QUESTION_AIMS: [f64; 3] = [0.7, 1.0, 1.0];

impl Report<'_> {
    pub(super) fn questions(&mut self) -> Done {
        self.head(
            "The envelope's question at window 4,160",
            &["L"],
            &["Library", "Rust", "Library / Rust"],
        )?;
        for (place, last_window) in LAST_WINDOWS.into_iter().enumerate() {
            let all = QUESTIONS.map(|side| Case::question(side, last_window));
            let timed = timed(&all)?;
            let ratio = timed.ratio(0, 1);
            let mut cells = vec![last_window.to_string()];
            cells.extend(times(&timed, &all));
            cells.push(format!("{ratio:.2}"));
            self.row(&cells)?;
            let what = format!("The question at 4,160, L {last_window}");
            self.aim(what, QUESTION_AIMS[place], ratio);
        }
        Ok(())
    }
}
