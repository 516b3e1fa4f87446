//! The tables of `docs/BENCHMARK.md`, measured and printed as they stand there.

mod certificates;
mod chains;
mod counts;
mod live;
mod noise;
mod paths;
mod ports;
mod program;
mod questions;
mod runs;
mod sizes;
mod squares;

use std::io::{self, Write};

use crate::answers::agree;
use crate::cases::{Case, TRACE_SLOTS};
use crate::clock::{ROUNDS, Timed, Work};
use crate::shown::duration;

/// A ratio that was asked for, and the worst one measured.
struct Aim {
    what: String,
    most: f64,
    found: f64,
}

/// Prints table after table; what was asked for stands last, when all of it is measured.
pub struct Report<'a> {
    out: &'a mut dyn Write,
    aims: Vec<Aim>,
}

type Done = Result<(), String>;

/// The slots of the runs that were asked about.
const LONGEST: usize = TRACE_SLOTS[TRACE_SLOTS.len() - 1];

impl Report<'_> {
    pub fn new(out: &mut dyn Write) -> Report<'_> {
        Report {
            out,
            aims: Vec::new(),
        }
    }

    /// Every table of times.
    pub fn times(&mut self) -> Done {
        self.line(&format!(
            "Times are medians of {ROUNDS} rounds, and so is each ratio, taken within a round; in a \
             round every column of a row has its turn."
        ))?;
        self.live()?;
        self.runs()?;
        self.narrow()?;
        self.paths()?;
        self.squares()?;
        self.questions()?;
        self.chains()?;
        self.certificates()?;
        self.sizes()?;
        self.ports()?;
        self.program()?;
        self.control()
    }

    fn line(&mut self, text: &str) -> Done {
        let written = writeln!(self.out, "{text}").and_then(|()| self.out.flush());
        written.map_err(|problem: io::Error| format!("standard output: {problem}"))
    }

    /// A heading and a table's first two lines; the first columns hold words, the rest numbers.
    fn head(&mut self, title: &str, words: &[&str], numbers: &[&str]) -> Done {
        let columns = [words, numbers].concat().join(" | ");
        let rule = "---|".repeat(words.len()) + &"---:|".repeat(numbers.len());
        self.line(&format!("\n### {title}\n\n| {columns} |\n|{rule}"))
    }

    fn row(&mut self, cells: &[String]) -> Done {
        self.line(&format!("| {} |", cells.join(" | ")))
    }

    fn aim(&mut self, what: String, most: f64, found: f64) {
        self.aims.push(Aim { what, most, found });
    }

    /// What was asked for, beside the worst that was measured.
    pub fn aims(&mut self) -> Done {
        self.head(
            "Asked and measured",
            &["Ratio"],
            &["At most", "Measured, the worst"],
        )?;
        for Aim { what, most, found } in std::mem::take(&mut self.aims) {
            let over = if found >= most + 0.005 {
                " (above)"
            } else {
                ""
            };
            self.row(&[what, format!("{most:.2}"), format!("{found:.2}{over}")])?;
        }
        Ok(())
    }
}

/// Times cases in turn, once they were found to answer alike.
fn timed(all: &[Case]) -> Result<Timed, String> {
    agree(all)?;
    let works: Result<Vec<Work<'_>>, String> = all.iter().map(Case::work).collect();
    Ok(Timed::in_turn(&mut works?))
}

/// The median time of one part of each case's work.
fn times<'a>(timed: &'a Timed, all: &'a [Case]) -> impl Iterator<Item = String> + 'a {
    let part = |(place, case): (usize, &Case)| duration(timed.time(place) / case.parts() as f64);
    all.iter().enumerate().map(part)
}
