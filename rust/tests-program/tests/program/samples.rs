//! The sample streams: each file comes from its text, each table from its file, and the program
//! prints that table.

use std::fs;

use reference::layout::StreamFile;
use reference::refusal::{self, Refusal};
use reference::regulator::Row;
use reference::{stream, text, trace};
use tests_program::compare::compare_with;
use tests_program::program::Program;
use tests_program::samples::{SAMPLES, bytes};
use tests_program::stage::repository;

fn words(name: &str, ending: &str) -> String {
    String::from_utf8(bytes(name, ending)).unwrap_or_else(|problem| panic!("{name}: {problem}"))
}

fn rows(name: &str) -> Vec<Row> {
    let stream = stream::read(&bytes(name, "stream")).expect("an accepted sample");
    trace::rows(&stream).expect("an accepted sample")
}

#[test]
fn every_sample_is_listed() {
    let found = fs::read_dir(repository("streams")).expect("the folder of samples");
    let paths = found.map(|entry| entry.expect("a sample").path());
    let texts = paths.filter(|path| path.extension().is_some_and(|ending| ending == "txt"));
    let mut names: Vec<String> = texts
        .filter_map(|path| Some(path.file_stem()?.to_str()?.to_owned()))
        .collect();
    names.sort();
    let mut listed = SAMPLES;
    listed.sort();
    assert_eq!(names, listed);
}

#[test]
fn files_come_from_their_texts() {
    for name in SAMPLES {
        let file = streamtext::parse(&words(name, "txt"))
            .unwrap_or_else(|problem| panic!("{name}.txt: {problem}"));
        assert!(
            file.to_bytes() == bytes(name, "stream"),
            "{name}.stream is not its text's"
        );
        let back = StreamFile::from_bytes(&bytes(name, "stream")).expect("the right length");
        assert_eq!(
            streamtext::parse(&streamtext::show(&back)).as_ref(),
            Ok(&file)
        );
    }
}

#[test]
fn tables_come_from_their_files() {
    for name in SAMPLES {
        let table = text::printed(&bytes(name, "stream"));
        assert!(
            table == words(name, "table"),
            "{name}.table is not its file's"
        );
    }
}

#[test]
fn the_program_prints_the_tables() {
    let program = Program::find().unwrap_or_else(|problem| panic!("{problem}"));
    for name in SAMPLES {
        let file = bytes(name, "stream");
        compare_with(&words(name, "table"), program.print(&file), &file)
            .unwrap_or_else(|problem| panic!("{name}: {problem}"));
    }
}

/// The order form counts at a slot's end, the test bench after the arrivals and before the
/// departures, when what departs in the slot is still there.
#[test]
fn bella_holds_30_packets_and_fills_36_places() {
    let rows = rows("bella");
    let held = rows.iter().map(|row| row.held).max();
    let filled = rows.iter().map(|row| row.held + row.departed).max();
    assert_eq!((held, filled), (Some(30), Some(36)));
}

#[test]
fn samples_are_what_they_are_named_for() {
    let lost = |name: &str| rows(name).iter().map(|row| row.dropped).sum::<u64>();
    assert!(lost("delay-only") > 0);
    assert!(lost("bella") > 0);
    assert!(lost("long") > 0);
    assert_eq!(rows("long").len(), 4_096);
    assert_eq!(lost("no-limits"), 0);
    let no_limits = stream::read(&bytes("no-limits", "stream")).expect("a sample that is read");
    let set_up = refusal::set_up(&no_limits.table, no_limits.delay, no_limits.buffer);
    assert_eq!(set_up, Err(Refusal::BothLimitsNone));
    assert_eq!(words("refused", "table"), "refused 6\n");
}
