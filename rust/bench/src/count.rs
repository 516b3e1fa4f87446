//! Instructions, counted by valgrind's callgrind: steadier than times, though not what a user waits
//! for.

use std::env;
use std::fs::File;
use std::path::Path;
use std::process::{Command, Stdio};

use crate::cases::Case;
use crate::clock::Work;

/// A case is done so often more in the second of two counts; what it takes to start falls out of
/// their difference.
const TIMES: [u32; 2] = [1, 3];

/// Whether there is a valgrind to count with.
pub fn possible() -> bool {
    let found = Command::new("valgrind")
        .arg("--version")
        .stdout(Stdio::null())
        .stderr(Stdio::null())
        .status();
    found.is_ok_and(|status| status.success())
}

/// Does some work so often, for a count.
pub fn repeat(mut work: Work<'_>, times: u32) {
    for _ in 0..times {
        work();
    }
}

/// Instructions for one part of a case's work.
pub fn of_case(case: &Case) -> Result<f64, String> {
    Ok(of_named(&case.to_string())? / case.parts() as f64)
}

/// Instructions for the work of the case with this name.
pub fn of_named(name: &str) -> Result<f64, String> {
    let own = env::current_exe().map_err(|problem| problem.to_string())?;
    let [few, more] = TIMES.map(|times| {
        let mut command = callgrind(&own);
        command.args(["count", name, &times.to_string()]);
        collected(&mut command)
    });
    Ok((more? - few?) as f64 / f64::from(TIMES[1] - TIMES[0]))
}

/// Instructions of a whole program that reads a file from standard input, its start included.
pub fn of_program(program: &Path, arguments: &[&str], file: &Path) -> Result<u64, String> {
    let input = File::open(file).map_err(|problem| format!("{}: {problem}", file.display()))?;
    collected(callgrind(program).args(arguments).stdin(Stdio::from(input)))
}

fn callgrind(program: &Path) -> Command {
    let mut command = Command::new("valgrind");
    command
        .args(["--tool=callgrind", "--callgrind-out-file=/dev/null"])
        .arg(program)
        .stdin(Stdio::null());
    command
}

/// The number after `Collected :` in what callgrind says.
fn collected(command: &mut Command) -> Result<u64, String> {
    let output = command.output();
    let output = output.map_err(|problem| format!("{command:?}: {problem}"))?;
    let said = String::from_utf8_lossy(&output.stderr);
    let counted = said.lines().find_map(|line| {
        let (_, number) = line.split_once("Collected :")?;
        number.trim().parse().ok()
    });
    counted.ok_or_else(|| format!("{command:?}: no count in\n{said}"))
}
