//! Whole-trace runs: long traces beside short ones.

use super::{Done, LONGEST, Report, timed, times};
use crate::cases::{BASE_SLOTS, Case, LAST_WINDOWS, NARROW_SLOTS, RUN_DELAY, RUNS, TRACE_SLOTS};
use crate::shown::{duration, grouped};

/// The ratios asked for at L 1, 8 and 64.
const RUN_AIMS: [f64; 3] = [0.4, 0.8, 0.8];
/// In short traces the set-up weighs more.
const SLIDING_AIM: f64 = 1.0;
const SHORT_SLIDING_AIM: f64 = 1.1;
const TWICE_AS_LONG_AIM: f64 = 3.0;

impl Report<'_> {
    /// Runs of all lengths take turns, so that their costs can be set beside each other.
    pub(super) fn runs(&mut self) -> Done {
        self.head(
            "A slot of a whole-trace run, d 8",
            &["L", "Slots"],
            &[
                "Library",
                "Rust",
                "Rust, 32 bits",
                "Library / Rust",
                "Library / Rust, 32 bits",
                "Library's slot / that of 512",
            ],
        )?;
        for (place, last_window) in LAST_WINDOWS.into_iter().enumerate() {
            let of_length = |slots| RUNS.map(|side| Case::run(side, last_window, RUN_DELAY, slots));
            let all: Vec<Case> = TRACE_SLOTS.into_iter().flat_map(of_length).collect();
            let timed = timed(&all)?;
            let base = all.iter().position(|case| case.parts() == BASE_SLOTS);
            let base = base.ok_or("no run of the base's slots")?;
            let (mut long, mut short) = (0.0_f64, 0.0_f64);
            for (length, slots) in TRACE_SLOTS.into_iter().enumerate() {
                let first = RUNS.len() * length;
                let ratios = [1, 2].map(|side| timed.ratio(first, first + side));
                let growth = timed.ratio(first, base) * BASE_SLOTS as f64 / slots as f64;
                let mut cells = vec![last_window.to_string(), grouped(slots as u64)];
                cells.extend(times(&timed, &all).skip(first).take(RUNS.len()));
                cells.extend(ratios.map(|ratio| format!("{ratio:.2}")));
                cells.push(format!("{growth:.2}"));
                self.row(&cells)?;
                if slots == LONGEST {
                    let what = format!("A run of 4,096, L {last_window}, to Rust");
                    self.aim(what, RUN_AIMS[place], ratios[0]);
                }
                let worst = if slots < BASE_SLOTS {
                    &mut short
                } else {
                    &mut long
                };
                *worst = worst.max(ratios[1]);
            }
            let what = |slots: &str| format!("A run of {slots}, L {last_window}, to Rust, 32 bits");
            self.aim(what("512 slots or more"), SLIDING_AIM, long);
            self.aim(what("fewer than 512 slots"), SHORT_SLIDING_AIM, short);
        }
        Ok(())
    }

    pub(super) fn narrow(&mut self) -> Done {
        self.head(
            "A run of 4,096 slots over one of 2,048: table 0,1, d 0, q 9",
            &["Side"],
            &["2,048 slots", "4,096 slots", "4,096 / 2,048"],
        )?;
        let of_length = |slots| RUNS.map(|side| Case::narrow(side, slots));
        let all: Vec<Case> = NARROW_SLOTS.into_iter().flat_map(of_length).collect();
        let timed = timed(&all)?;
        for (short, name) in ["Library", "Rust", "Rust, 32 bits"].into_iter().enumerate() {
            let long = short + RUNS.len();
            let ratio = timed.ratio(long, short);
            let mut cells = vec![String::from(name)];
            cells.extend([short, long].map(|place| duration(timed.time(place))));
            cells.push(format!("{ratio:.2}"));
            self.row(&cells)?;
        }
        let what = String::from("4,096 slots over 2,048, table 0,1, d 0, q 9");
        self.aim(what, TWICE_AS_LONG_AIM, timed.ratio(RUNS.len(), 0));
        Ok(())
    }
}
