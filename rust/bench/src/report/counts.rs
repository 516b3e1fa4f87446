//! Instructions.

use super::{Done, LONGEST, Report};
use crate::cases::{
    Case, DELAYS, LAST_WINDOWS, NARROW_SLOTS, PATH_DELAYS, QUESTIONS, RUN_DELAY, RUNS, SLOTS,
    SQUARE_DELAYS, STAGES, Side, TRACE_SLOTS,
};
use crate::chains::Trace;
use crate::count;
use crate::shown::{grouped, limit};

impl Report<'_> {
    /// Instructions of one slot or question, where they can be counted.
    pub fn counts(&mut self) -> Done {
        if !count::possible() {
            return self.line("\nInstructions were not counted: there is no valgrind.");
        }
        self.head(
            "Instructions, counted by callgrind",
            &["Work"],
            &[
                "Library",
                "Library, preview",
                "Library, whole",
                "Rust",
                "Rust, 32 bits",
                "Rust, heads",
            ],
        )?;
        for last_window in LAST_WINDOWS {
            for delay in DELAYS {
                let name = format!("A live slot, L {last_window}, d {}", limit(delay));
                self.count_row(&name, |side| Case::live(side, last_window, delay), SLOTS)?;
            }
        }
        for last_window in LAST_WINDOWS {
            for slots in TRACE_SLOTS {
                let name = format!(
                    "A slot of a run of {}, L {last_window}",
                    grouped(slots as u64)
                );
                let case = |side| Case::run(side, last_window, RUN_DELAY, slots);
                self.count_row(&name, case, RUNS)?;
            }
        }
        self.count_paths()?;
        self.count_squares()?;
        self.count_sizes()?;
        for slots in NARROW_SLOTS {
            let slots_shown = grouped(slots as u64);
            let name = format!("A slot of a run of {slots_shown}, table 0,1, d 0, q 9");
            self.count_row(&name, |side| Case::narrow(side, slots), RUNS)?;
        }
        for last_window in LAST_WINDOWS {
            let name = format!("The question at 4,160, L {last_window}");
            self.count_row(&name, |side| Case::question(side, last_window), QUESTIONS)?;
        }
        self.count_ports()?;
        self.count_program()?;
        self.count_chains()?;
        self.count_certificates()
    }

    /// One regulator without a delay limit stands before the paths without one.
    fn count_paths(&mut self) -> Done {
        for last_window in LAST_WINDOWS {
            for delay in PATH_DELAYS {
                let under = format!("L {last_window}, d {}", limit(delay));
                if delay != RUN_DELAY {
                    let name = format!("A slot of a run of 4,096, {under}");
                    let case = |side| Case::run(side, last_window, delay, LONGEST);
                    self.count_row(&name, case, [Side::Library])?;
                }
                for stages in STAGES {
                    let name = format!("A slot of a path's run of 4,096, stages {stages}, {under}");
                    let case = |_| Case::path(stages, last_window, delay, LONGEST);
                    self.count_row(&name, case, [Side::Library])?;
                }
            }
        }
        Ok(())
    }

    /// A square takes as long whatever table it is made from.
    fn count_squares(&mut self) -> Done {
        for delay in SQUARE_DELAYS {
            let [square, table] = Case::squares(LAST_WINDOWS[0], delay);
            let name = format!(
                "A run of {} under a square, d {}",
                table.parts(),
                limit(delay)
            );
            self.count_row(&name, |_| square.clone(), [Side::Library])?;
        }
        Ok(())
    }

    fn count_sizes(&mut self) -> Done {
        for last_window in LAST_WINDOWS {
            let [buffer, delay, _] = Case::sizes(last_window);
            for (limit, case) in [("buffer", buffer), ("delay limit", delay)] {
                let name = format!("The smallest {limit} of 4,096 slots, L {last_window}");
                self.count_row(&name, |_| case.clone(), [Side::Library])?;
            }
        }
        Ok(())
    }

    /// A row of instructions of works over one trace, and of the ratios between some of them.
    pub(super) fn count_trace<const N: usize>(
        &mut self,
        trace: Trace,
        last_window: usize,
        works: [String; N],
        ratios: &[(usize, usize)],
    ) -> Done {
        let mut counts = [0.0; N];
        for (found, work) in counts.iter_mut().zip(&works) {
            *found = count::of_named(work)?;
        }
        let mut cells = vec![last_window.to_string(), String::from(trace.name())];
        cells.extend(counts.map(|count| grouped(count.round() as u64)));
        let ratio = |&(work, to): &(usize, usize)| format!("{:.1}", counts[work] / counts[to]);
        cells.extend(ratios.iter().map(ratio));
        self.row(&cells)
    }

    /// The last column is the port's alone.
    fn count_row<const N: usize>(
        &mut self,
        name: &str,
        case: impl Fn(Side) -> Case,
        sides: [Side; N],
    ) -> Done {
        let mut cells = vec![String::from(name)];
        let columns = [
            Side::Library,
            Side::Preview,
            Side::Whole,
            Side::Rust,
            Side::Sliding,
        ];
        for column in columns {
            cells.push(if sides.contains(&column) {
                grouped(count::of_case(&case(column))?.round() as u64)
            } else {
                String::new()
            });
        }
        cells.push(String::new());
        self.row(&cells)
    }
}
