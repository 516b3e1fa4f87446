//! `bin/loss-tables`: every stream of a folder has the table that `bin/loss-table` prints, the certificate
//! that `bin/certificate` does and its line of the summary, whatever becomes of the run; and pages are what
//! they say of them.
//!
//! A binary of its own, since it takes the time of runs: no tests of other commands run beside it.

mod certificates;
mod folders;
mod page_reader;
mod pages;
mod pages_over_time;
mod reasons;
#[path = "../../src/bin/loss-tables/sha256.rs"]
mod sha256;
mod tables;

use std::fs;

use reference::regulator::Row;
use reference::{fill, stream, trace};
use tests_program::over_library::Script;
use tests_program::program::Program;
use tests_program::samples::{ACCEPTED, SAMPLES};
use tests_program::stage::Stage;

const ASKED: [&str; 2] = ["streams", "tables"];
/// The samples' tables and certificates.
const FILES: usize = SAMPLES.len() + ACCEPTED.len();
const HEADING: &str = "name\tslots\tarrived\tadmitted\tdropped\tdeparted\tform peak\tbench peak\t\
                       stream SHA-256\ttable SHA-256\tcertified\tcertificate SHA-256\n";

/// The samples in `streams`, one of which is refused.
fn script() -> Script {
    Script {
        stage: Stage::over_both("bin/loss-tables", env!("CARGO_BIN_EXE_loss-tables")),
        arguments: &ASKED,
        printed: "",
    }
}

fn read(stage: &Stage, name: &str) -> String {
    fs::read_to_string(stage.path(name)).unwrap_or_else(|problem| panic!("{name}: {problem}"))
}

/// The names in a folder, in order.
fn names(stage: &Stage, folder: &str) -> Vec<String> {
    let found = fs::read_dir(stage.path(folder)).expect("a folder");
    let mut names: Vec<String> = found
        .map(|entry| entry.expect("an entry").file_name())
        .map(|name| name.to_string_lossy().into_owned())
        .collect();
    names.sort();
    names
}

fn digest(stage: &Stage, file: &str) -> String {
    let ended = stage.ended(stage.system("sha256sum").arg(file));
    ended.out.split(' ').next().unwrap_or_default().to_owned()
}

/// What `bin/certificate` prints for a stream, or none where it refuses it.
fn certificate(stage: &Stage, name: &str) -> Option<String> {
    let mut program = stage.system(env!("CARGO_BIN_EXE_certificate"));
    let ended = stage.ended(program.arg(format!("streams/{name}.stream")));
    (ended.status == Some(0)).then_some(ended.out)
}

/// The number of slots that a certificate's last line says are certified.
fn certified(certificate: &str) -> &str {
    let last = certificate.lines().last().expect("a last line");
    last.split(' ').nth(1).expect("a number")
}

/// A stream's line of the summary: its counts by the reference, its digests by the system.
fn line(stage: &Stage, name: &str) -> String {
    let file = fs::read(stage.path(&format!("streams/{name}.stream"))).expect("a stream");
    let digests = [
        format!("streams/{name}.stream"),
        format!("tables/{name}.table"),
    ]
    .map(|file| digest(stage, &file));
    let counts = match stream::read(&file).and_then(|stream| trace::rows(&stream)) {
        Err(refusal) => {
            let refusal = bezhantiru::Refusal::listed(refusal.number().into());
            format!("{}\t-\t-\t-\t-\t-\t-", refusal.expect("a refusal"))
        }
        Ok(rows) => {
            let records = fill::records(&rows);
            let sum = |of: fn(&Row) -> u64| rows.iter().map(of).sum::<u64>();
            let peak = |of: fn(&fill::Record) -> u64| records.iter().map(of).max().unwrap_or(0);
            let counts = [
                rows.len() as u64,
                sum(|row| row.arrived),
                sum(|row| row.admitted),
                sum(|row| row.dropped),
                sum(|row| row.departed),
                peak(fill::Record::form_fill),
                peak(fill::Record::bench_fill),
            ];
            counts.map(|count| count.to_string()).join("\t")
        }
    };
    let digests = digests.join("\t");
    let certificate = match certificate(stage, name) {
        Some(text) => {
            let digest = digest(stage, &format!("tables/{name}.certificate"));
            format!("{}\t{digest}", certified(&text))
        }
        None => String::from("-\t-"),
    };
    format!("{name}\t{counts}\t{digests}\t{certificate}\n")
}

/// Every stream in `streams` has its table and certificate in `tables`, and its line in the summary.
fn check_tables(stage: &Stage) {
    let prints = Program::find().expect("the program");
    let mut summary = String::from(HEADING);
    let streams = names(stage, "streams").into_iter();
    for name in streams.filter_map(|name| Some(name.strip_suffix(".stream")?.to_owned())) {
        let name = &*name;
        let file = fs::read(stage.path(&format!("streams/{name}.stream"))).expect("a stream");
        let table = read(stage, &format!("tables/{name}.table"));
        assert_eq!(Ok(table), prints.print(&file), "{name}");
        let found = fs::read_to_string(stage.path(&format!("tables/{name}.certificate")));
        assert_eq!(found.ok(), certificate(stage, name), "{name}");
        summary += &line(stage, name);
    }
    assert_eq!(read(stage, "tables/summary.txt"), summary);
}
