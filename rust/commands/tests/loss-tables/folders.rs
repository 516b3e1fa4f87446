//! Folders and files that are not as they should be, runs that end early, and tables that are verified.

use std::fs;
use std::thread;
use std::time::{Duration, Instant};

use tests_program::program::Program;
use tests_program::samples::{ACCEPTED, SAMPLES, bytes};
use tests_program::stage::{COMPILED, PROGRAM, Stage};

use super::{ASKED, FILES, check_tables, names, read, script};

#[test]
fn help_and_wrong_usage() {
    let two = "a folder of stream files and one for";
    let both = &["--verify", "streams", "tables", "--replace"];
    let wrong = [
        (&[][..], two),
        (&ASKED[..1], two),
        (&["a", "b", "c"], two),
        (both, "--verify writes nothing"),
    ];
    script().check_usage("[--pages] [--replace | --verify] DIR OUT", &wrong);
}

#[test]
fn what_is_no_folder_of_streams_is_said() {
    let stage = script().stage;
    for (words, said) in [
        (&["no such", "tables"][..], "there is no folder 'no such'"),
        (
            &["streams/bella.stream", "tables"],
            "'streams/bella.stream' is no folder",
        ),
        (&["streams", "crates.txt"], "'crates.txt' is no folder"),
        (
            &["--verify", "streams", "nowhere"],
            "there is no folder 'nowhere'",
        ),
    ] {
        stage.run(words).check_problem(1, said);
    }
    assert_eq!(stage.calls(COMPILED), 0);
    let empty = stage.run(&["scripts", "nowhere"]);
    empty.check_problem(1, "no stream file in 'scripts'");
    assert!(!stage.path("nowhere").exists());
}

#[test]
fn what_is_none_of_ours_is_left_alone() {
    let stage = script().stage;
    for (name, text) in [
        ("tables/notes.txt", "mine"),
        (
            "tables/other.table",
            "slot arrived admitted dropped departed held\n",
        ),
        ("tables/bella.table", "my own table of Bella"),
        ("tables/bella.certificate", "that Bella was there"),
        ("tables/bella.html", "<!DOCTYPE html>"),
        ("tables/bella.stream", ""),
        ("tables/summary.txt", "a summary of something else"),
    ] {
        stage.write(name, text);
        let ended = stage.run(&ASKED);
        ended.check_problem(1, "which is none of these tables; --replace writes there");
        assert_eq!(
            (names(&stage, "tables").len(), &*read(&stage, name)),
            (1, text)
        );
        fs::remove_file(stage.path(name)).expect("a file");
    }
    stage.write("tables/notes.txt", "mine");
    stage.write("tables/bella.table", "my own table of Bella");
    let replaced = stage.run(&["--replace", "streams", "tables"]);
    assert_eq!(replaced.status, Some(3), "{replaced:?}");
    check_tables(&stage);
    assert_eq!(read(&stage, "tables/notes.txt"), "mine");
    assert_eq!(names(&stage, "tables").len(), FILES + 2);
    // The streams' own folder.
    stage
        .run(&["streams", "streams"])
        .check_problem(1, "none of these tables");
    assert_eq!(
        stage.run(&["streams", "streams", "--replace"]).status,
        Some(3)
    );
    assert_eq!(names(&stage, "streams").len(), SAMPLES.len() + FILES + 1);
    // What has a table's name and cannot be replaced.
    fs::create_dir_all(stage.path("folders/long.table/full")).expect("a folder");
    let folder = stage.run(&["--replace", "streams", "folders"]);
    folder.check_last_problem(1, "'folders/long.table' could not be written: ");
    assert!(!stage.path("folders/summary.txt").exists());
}

#[test]
fn a_stream_that_cannot_be_read_keeps_no_other_from_its_table() {
    let stage = script().stage;
    assert_eq!(stage.run(&ASKED).status, Some(3));
    fs::create_dir(stage.path("streams/folder.stream")).expect("a folder");
    let ended = stage.run(&ASKED);
    ended.check_last_problem(
        1,
        "'streams/folder.stream' could not be read: it is no file",
    );
    assert_eq!(names(&stage, "tables").len(), FILES);
    fs::remove_dir(stage.path("streams/folder.stream")).expect("a folder");
    stage.script(
        PROGRAM,
        "echo slot arrived admitted dropped departed held; echo 1 6 6 0 4 2",
    );
    stage
        .run(&ASKED)
        .check_last_problem(1, "broke off before its last line");
    stage.script(PROGRAM, "echo refused 6; exit 4");
    stage
        .run(&ASKED)
        .check_last_problem(1, "broke off with exit status: 4");
    assert_eq!(names(&stage, "tables").len(), FILES);
}

/// It prints the tables of some streams and then waits, while `hold` is there.
const HOLDING: &str = "read -r -d '' -N 3 start 2>/dev/null\n\
                       while [ -e hold ] && [ $(ls tables | wc -l) -gt 1 ]; do touch held; sleep 0.01; done\n\
                       echo refused 6";

fn wait_for(stage: &Stage, name: &str) {
    let patience = Instant::now();
    while !stage.path(name).exists() {
        assert!(patience.elapsed() < Duration::from_secs(60), "no {name}");
        thread::sleep(Duration::from_millis(5));
    }
}

#[test]
fn an_interrupted_run_is_picked_up_again() {
    let stage = script().stage;
    stage.script(PROGRAM, HOLDING);
    stage.write("hold", "");
    let mut first = stage.start(&ASKED);
    wait_for(&stage, "held");
    let busy = stage.run(&ASKED);
    busy.check_problem(1, "another run is writing to 'tables'");
    first.kill().expect("a kill");
    fs::remove_file(stage.path("hold")).expect("a file");
    drop(stage.waited(first));
    let left = names(&stage, "tables");
    assert!(
        !left.contains(&String::from("summary.txt")) && left.len() < SAMPLES.len(),
        "{left:?}"
    );
    for name in left.iter().filter(|name| name.ends_with(".table")) {
        assert_eq!(read(&stage, &format!("tables/{name}")), "refused 6\n");
    }
    // A run that was ended while it wrote a file leaves such a part.
    stage.write("tables/.loss-tables.0.part", "slot arr");
    let program = Program::find().expect("the program");
    stage.copy_from(program.path(), PROGRAM);
    assert_eq!(stage.run(&ASKED).status, Some(3));
    check_tables(&stage);
    assert_eq!(names(&stage, "tables").len(), FILES + 1);
}

#[test]
fn verified() {
    let stage = script().stage;
    assert_eq!(stage.run(&ASKED).status, Some(3));
    let verify = |status, differ: &str, tables: usize, accepted: usize| {
        let wanted = format!(
            "{differ}{tables} of {} tables differ\n{accepted} of {} certificates accepted by the proved checker\n",
            SAMPLES.len(),
            ACCEPTED.len()
        );
        let before = names(&stage, "tables");
        let ended = stage.run(&["--verify", "streams", "tables"]);
        assert_eq!(
            (ended.status, &*ended.out),
            (Some(status), &*wanted),
            "{ended:?}"
        );
        assert_eq!(names(&stage, "tables"), before);
    };
    verify(0, "", 0, 4);
    let bella = read(&stage, "tables/bella.table");
    stage.write("tables/bella.table", &bella.replacen("\n14 ", "\n14 9", 1));
    fs::remove_file(stage.path("tables/long.table")).expect("a table");
    stage.write("tables/notes.txt", "mine");
    let differ = "bella.table differs from line 15 on\n\
                  bella.table: slot 14: arrived has to be 1\n\
                  long.table is missing\n";
    verify(3, differ, 2, 2);
    stage.write("tables/bella.table", &bella);
    fs::write(stage.path("tables/long.table"), bytes("long", "table")).expect("a table");
    let summary = read(&stage, "tables/summary.txt");
    stage.write(
        "tables/summary.txt",
        &summary.replace("refused 6", "refused 7"),
    );
    let line = 1 + summary
        .lines()
        .position(|line| line.starts_with("refused\t"))
        .expect("a line");
    verify(
        3,
        &format!("summary.txt differs from line {line} on\n"),
        0,
        4,
    );
    let full = stage.run_full(&["--verify", "streams", "tables"]);
    full.check_last_problem(1, "could not be written: No space left on device");
}

#[test]
fn what_could_not_be_built_is_not_run() {
    script().check_unbuilt();
}
