//! The printing program, where it is built.

use super::{Done, Report};
use crate::program::Programs;
use crate::shown::{duration, grouped};

const PROGRAM_AIM: f64 = 0.9;

impl Report<'_> {
    pub(super) fn program(&mut self) -> Done {
        let Some(programs) = find_programs()? else {
            return self.line("\nThe program was not timed: `target/bin/loss_table` is not built.");
        };
        let timed = programs.time().map_err(|problem| problem.to_string())?;
        let ratio = timed.ratio(0, 1);
        self.head(
            "The program on `streams/long.stream`, 4,096 slots",
            &["Measure"],
            &["Library", "Rust", "Library / Rust"],
        )?;
        let [library, rust] = [0, 1].map(|side| duration(timed.time(side)));
        self.row(&[
            String::from("time, from start to end"),
            library,
            rust,
            format!("{ratio:.2}"),
        ])?;
        self.aim(String::from("The program"), PROGRAM_AIM, ratio);
        Ok(())
    }

    pub(super) fn count_program(&mut self) -> Done {
        let Some(programs) = find_programs()? else {
            return Ok(());
        };
        let [library, rust] = programs.count()?;
        self.row(&[
            String::from("The program on 4,096 slots"),
            grouped(library),
            String::new(),
            String::new(),
            grouped(rust),
            String::new(),
            String::new(),
        ])
    }
}

fn find_programs() -> Result<Option<Programs>, String> {
    Programs::find().map_err(|problem| problem.to_string())
}
