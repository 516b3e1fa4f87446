//! The script: a certificate, or one line that says why there is none.

use std::fs;

use reference::layout::StreamFile;
use tests_program::samples::{ACCEPTED, bytes};
use tests_program::stage::PROVED;

use super::{CHECKED, script};

#[test]
fn a_file_or_standard_input() {
    let stage = script().stage;
    for sample in ACCEPTED {
        let path = format!("streams/{sample}.stream");
        let wanted = String::from_utf8_lossy(&bytes(sample, "certificate")).into_owned();
        stage.run(&[&path]).check_printed(&wanted);
        let fed = stage.feed(&["-"], &bytes(sample, "stream"));
        fed.check_printed(&wanted);
    }
    assert_eq!(stage.calls(PROVED), 0);
}

#[test]
fn a_stream_of_no_slots() {
    let stage = script().stage;
    let empty = StreamFile::of_arrivals(&[0, 1], (0, 1), &[]);
    fs::write(stage.path("empty.stream"), empty.to_bytes()).expect("a file");
    let ended = stage.run(&["empty.stream"]);
    let heading = "slot admitted from by amount departed from amount\n";
    ended.check_printed(&format!("{heading}certified 0 of 0 slots\n"));
    stage.write("empty.certificate", &ended.out);
    let text = "slot arrived admitted dropped departed held\ntotal 0 0 0 0 0\n";
    stage.write("empty.table", text);
    let words = [
        "--check",
        "empty.stream",
        "empty.table",
        "empty.certificate",
    ];
    let wanted = "certified: no regulator could have lost fewer by any of 0 slots\n";
    stage.run(&words).check_printed(wanted);
}

#[test]
fn files_that_are_refused_or_cannot_be_read() {
    script().check_stream_files(&[]);
}

#[test]
fn files_to_check_that_are_refused_or_cannot_be_read() {
    let stage = script().stage;
    for (file, refused) in [
        (
            "streams/refused.stream",
            "refused 6: delay is neither 0 to 64 nor 255",
        ),
        ("streams/no-limits.stream", "refused 23: both limits none"),
    ] {
        let ended = stage.run(&["--check", file, "no such", "no such"]);
        ended.check_problem(1, &format!("the file '{file}': {refused}\n"));
    }
    for (file, words) in [
        (
            "no such",
            "the file 'no such' could not be read: No such file",
        ),
        (
            "streams",
            "the file 'streams' could not be read: Is a directory",
        ),
        ("/dev/zero", "the file '/dev/zero': line 1: has to be"),
    ] {
        for place in [2, 3] {
            let mut asked = CHECKED;
            asked[place] = file;
            stage.run(&asked).check_problem(1, words);
        }
    }
    let asked = ["--check", "no such", CHECKED[2], CHECKED[3]];
    stage.run(&asked).check_problem(1, "no file 'no such'");
}

#[test]
fn help_and_wrong_usage() {
    let [one, all] = [
        "one stream file",
        "a stream file, its table and its certificate",
    ];
    let several = "one of the three files, not several";
    let wrong = [
        (&[][..], one),
        (&["a", "b"], one),
        (&["a", "b", "c"], one),
        (&CHECKED[..1], all),
        (&CHECKED[..2], all),
        (&CHECKED[..3], all),
        (&["--check", "a", "b", "c", "d"], all),
        (&["--check", "-", CHECKED[2], "-"], several),
    ];
    let usage = "FILE\n       certificate --check FILE TABLE CERTIFICATE";
    script().check_usage(usage, &wrong);
}
