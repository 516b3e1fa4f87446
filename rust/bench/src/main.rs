//! Measures the proved regulator beside the one written in Rust for speed, and prints the tables of
//! `docs/BENCHMARK.md`.

use std::env;
use std::fmt::Display;
use std::io::{self, Read, Write};
use std::process::ExitCode;

use bench::cases::Case;
use bench::program::TABLE;
use bench::report::Report;
use bench::{certificates, chains, count, ports, printing};

const USAGE: &str = "usage: bench              every table
       bench times        those of times, and what was asked for
       bench cases        the names of the cases
       bench count CASE N does one case N times, to be run by callgrind
       bench stream CASE  the stream file of a run
       bench table < FILE prints a stream file's table";

fn main() -> ExitCode {
    let arguments: Vec<String> = env::args().skip(1).collect();
    let words: Vec<&str> = arguments.iter().map(String::as_str).collect();
    let outcome = match words[..] {
        [] => report(true),
        ["times"] => report(false),
        ["cases"] => list_cases(),
        ["count", case, times] => repeat(case, times),
        ["stream", case] => write_stream(case),
        [TABLE] => print_table().map_err(|problem| problem.to_string()),
        _ => Err(String::from(USAGE)),
    };
    match outcome {
        Ok(()) => ExitCode::SUCCESS,
        Err(problem) => {
            eprintln!("{problem}");
            ExitCode::FAILURE
        }
    }
}

fn report(with_counts: bool) -> Result<(), String> {
    let mut out = io::stdout().lock();
    let mut report = Report::new(&mut out);
    report.times()?;
    if with_counts {
        report.counts()?;
    }
    report.aims()
}

fn list_cases() -> Result<(), String> {
    let names = [
        names(&Case::all()),
        names(&ports::Case::all()),
        names(&chains::Case::all()),
        names(&certificates::Case::all()),
    ];
    let written = io::stdout().lock().write_all(names.concat().as_bytes());
    written.map_err(|problem| problem.to_string())
}

fn names(cases: &[impl Display]) -> String {
    cases.iter().map(|case| format!("{case}\n")).collect()
}

/// The case with this name.
fn named<Of: Display>(cases: Vec<Of>, name: &str) -> Option<Of> {
    cases.into_iter().find(|case| case.to_string() == name)
}

fn repeat(case: &str, times: &str) -> Result<(), String> {
    let times = times
        .parse()
        .map_err(|_| format!("`{times}` is no number"))?;
    if let Some(found) = named(Case::all(), case) {
        count::repeat(found.work()?, times);
    } else if let Some(found) = named(ports::Case::all(), case) {
        count::repeat(found.work(), times);
    } else if let Some(found) = named(chains::Case::all(), case) {
        count::repeat(found.work()?, times);
    } else if let Some(found) = named(certificates::Case::all(), case) {
        count::repeat(found.work()?, times);
    } else {
        return Err(format!("no case `{case}`: see `bench cases`"));
    }
    Ok(())
}

fn write_stream(case: &str) -> Result<(), String> {
    let stream = named(Case::all(), case).and_then(|found| found.stream());
    let stream = stream.ok_or_else(|| format!("no run `{case}`: see `bench cases`"))?;
    let written = io::stdout().lock().write_all(&stream);
    written.map_err(|problem| problem.to_string())
}

fn print_table() -> io::Result<()> {
    let mut file = Vec::new();
    io::stdin().lock().read_to_end(&mut file)?;
    io::stdout().lock().write_all(&printing::printed(&file))
}
