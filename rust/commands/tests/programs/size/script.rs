//! The script.

use reference::layout::{NO_BUFFER, NO_DELAY, StreamFile};
use tests_program::over_library::Script;
use tests_program::samples::{ACCEPTED, bytes};
use tests_program::stage::PROVED;

use super::program::Sizes;

const ASKED: [&str; 2] = ["streams/bella.stream", "12"];
const PRINTED: &str = "smallest buffer 34 with delay limit 7: 12 lost; with 33 no regulator loses fewer than 13
smallest delay limit 7 with buffer 36: 12 lost; with 6 no regulator loses fewer than 18
smallest buffer 38 with delay limit 7 to lose no more by any slot than with no limit: 12 lost; with 37 no regulator loses fewer than 1 by slot 1, where no limit loses 0
";

pub fn script() -> Script {
    let program = env!("CARGO_BIN_EXE_size");
    Script::new("bin/size", program, &ASKED, PRINTED)
}

#[test]
fn a_file_or_standard_input() {
    let stage = script().stage;
    for sample in ACCEPTED {
        let (path, bytes) = (format!("streams/{sample}.stream"), bytes(sample, "stream"));
        for most_lost in [0, 8, u32::MAX] {
            let wanted = Sizes::of_file(&bytes, most_lost);
            let wanted = wanted.expect("an accepted sample").to_string();
            let word = most_lost.to_string();
            stage.run(&[&path, &word]).check_printed(&wanted);
            let fed = stage.feed(&["-", &word], &bytes);
            fed.check_printed(&wanted);
        }
    }
    stage.run(&ASKED).check_printed(PRINTED);
    stage.run(&[ASKED[0], "0012"]).check_printed(PRINTED);
    // More than any stream has.
    let most = stage.run(&[ASKED[0], "99999999999999999999"]);
    let wanted = Sizes::of_file(&bytes("bella", "stream"), u32::MAX);
    most.check_printed(&wanted.expect("an accepted sample").to_string());
    assert_eq!(stage.calls(PROVED), 0);
}

#[test]
fn help_and_wrong_usage() {
    let words = [&[][..], &ASKED[..1], &["a", "1", "2"]];
    let wrong = words.map(|words| (words, "a stream file and a number"));
    script().check_usage("FILE LOST", &wrong);
}

#[test]
fn what_is_no_number_is_said() {
    let stage = script().stage;
    for (word, words) in [
        ("", "the most lost \"\" is no number"),
        ("-1", "the most lost \"-1\" is no number"),
        ("none", "the most lost \"none\" is no number"),
        ("1.0", "the most lost \"1.0\" is no number"),
    ] {
        stage.run(&[ASKED[0], word]).check_problem(2, words);
    }
}

#[test]
fn files_that_are_refused_or_cannot_be_read() {
    let script = script();
    script.check_stream_files(&["12"]);
    // Both limits none, and no slots either.
    let none = StreamFile::of_arrivals(&[0, 1], (NO_DELAY, NO_BUFFER), &[]);
    let ended = script.stage.feed(&["-", "0"], &none.to_bytes());
    ended.check_problem(1, "standard input: refused 23: both limits none");
}
