//! What is asked of every script over the library, whatever it prints.

use std::fs;

use tests_program::over_library::Script;
use tests_program::stage::repository;

use crate::{
    appendix, beside, certificate, envelope_pieces, loss_curve, peaks, size, why, worst_trace,
};

const OVER_LIBRARY: [fn() -> Script; 8] = [
    appendix::script,
    beside::script::script,
    certificate::script,
    envelope_pieces::script,
    peaks::script,
    size::script::script,
    why::script,
    worst_trace::script,
];
/// Those that run the proved program too.
const OVER_BOTH: [fn() -> Script; 1] = [loss_curve::script];
/// Each has a binary of tests of its own.
const ELSEWHERE: [&str; 2] = ["loss-table", "loss-tables"];

fn all() -> impl Iterator<Item = Script> {
    let scripts = OVER_LIBRARY.into_iter().chain(OVER_BOTH);
    scripts.map(|script| script())
}

#[test]
fn no_command_is_left_out() {
    let mut asked: Vec<String> = all()
        .map(|script| script.stage.tested().to_owned())
        .collect();
    asked.extend(ELSEWHERE.map(String::from));
    asked.sort();
    let commands = fs::read_dir(repository("bin")).expect("a folder");
    let mut commands: Vec<String> = commands
        .map(|entry| entry.expect("an entry").file_name())
        .map(|name| name.into_string().expect("a name"))
        .collect();
    commands.sort();
    assert_eq!(asked, commands);
}

#[test]
fn what_cannot_be_written_is_said() {
    all().for_each(|script| script.check_unwritten());
}

#[test]
fn a_missing_library_and_program_are_built_and_the_progress_shown() {
    for script in OVER_LIBRARY {
        script().check_built();
    }
}

#[test]
fn what_could_not_be_built_is_not_run() {
    all().for_each(|script| script.check_unbuilt());
}
