//! f at a window of a table, and the table entries that make it up.
//!
//!     envelope-pieces "0 2 3" 4

use std::process::ExitCode;

use commands::pieces::Pieces;
use commands::{Problem, Program, arguments, entries, number};

fn main() -> ExitCode {
    Program("envelope-pieces").answer(printed())
}

fn printed() -> Result<String, Problem> {
    let [table, window] = arguments("a table and a window")?;
    let table = entries(&table)?;
    let window = number("the window", &window)?;
    let pieces = Pieces::of(&table, window).map_err(Problem::no_answer)?;
    Ok(format!("{pieces}\n"))
}
