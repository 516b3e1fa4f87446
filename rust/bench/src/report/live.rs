//! Live slots and previews.

use super::{Done, Report, timed, times};
use crate::cases::{Case, DELAYS, LAST_WINDOWS, SLOTS};
use crate::shown::limit;

const PARTS_AIM: f64 = 1.05;
/// The ratios asked for at L 1, 8 and 64.
const WHOLE_AIMS: [f64; 3] = [4.0, 3.0, 1.6];
const PREVIEW_AIM: f64 = 1.0;

impl Report<'_> {
    pub(super) fn live(&mut self) -> Done {
        self.head(
            "A live slot",
            &["L", "d"],
            &[
                "Over parts",
                "Preview",
                "Whole",
                "Rust",
                "Over parts / Rust",
                "Whole / Rust",
                "Preview / over parts",
            ],
        )?;
        for (place, last_window) in LAST_WINDOWS.into_iter().enumerate() {
            let (numbers, none) = DELAYS.split_at(DELAYS.len() - 1);
            for (delays, limit) in [(numbers, "d a number"), (none, "d none")] {
                let mut worst = [0.0_f64; 3];
                for &delay in delays {
                    let ratios = self.live_row(last_window, delay)?;
                    worst = [0, 1, 2].map(|side| ratios[side].max(worst[side]));
                }
                let what = |slot: &str| format!("A live slot {slot}, L {last_window}, {limit}");
                self.aim(what("over parts"), PARTS_AIM, worst[0]);
                self.aim(what("of a whole regulator"), WHOLE_AIMS[place], worst[1]);
                let preview = format!("A preview, to a slot over parts, L {last_window}, {limit}");
                self.aim(preview, PREVIEW_AIM, worst[2]);
            }
        }
        Ok(())
    }

    /// The ratios of both slots to Rust's, and that of the preview to the slot over parts.
    fn live_row(&mut self, last_window: usize, delay: u32) -> Result<[f64; 3], String> {
        let all = SLOTS.map(|side| Case::live(side, last_window, delay));
        let timed = timed(&all)?;
        let ratios = [timed.ratio(0, 3), timed.ratio(2, 3), timed.ratio(1, 0)];
        let mut cells = vec![last_window.to_string(), limit(delay)];
        cells.extend(times(&timed, &all));
        cells.extend(ratios.map(|ratio| format!("{ratio:.2}")));
        self.row(&cells)?;
        Ok(ratios)
    }
}
