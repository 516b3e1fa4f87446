//! `bin/worst-trace`: the trace that loses most and its loss, as the reference finds them, and the stream
//! file, which loses as much; and the script: an answer, or one line that says why there is none.

#[allow(dead_code, reason = "its main is for the program")]
#[path = "../../src/bin/worst-trace.rs"]
mod program;

use std::fs;

use program::{SetUp, Worst};
use reference::worst::{Within, by_greed};
use reference::{stream, text, trace};
use tests_program::cases::{for_each_drawn, said, same, wide};
use tests_program::draw;
use tests_program::over_library::Script;
use tests_program::stage::PROVED;

const DRAWN: usize = 4_000;
const ASKED: [&str; 6] = ["0 2 3", "1", "9", "4", "5", "12"];
const PRINTED: &str = "trace 5 5 2 0\narrived 12, lost 6\n";

/// The reference's trace and loss; the file reads back as the trace, and its table has the loss.
fn check(set_up: &SetUp, slots: u32, in_slot: u32, in_all: u32) -> Result<(), String> {
    let found = said(Worst::of(set_up, slots, in_slot, in_all))?;
    let (delay, buffer) = (set_up.delay.into(), set_up.buffer.into());
    let within = Within {
        slots: slots.into(),
        most_in_slot: in_slot.into(),
        most_in_all: in_all.into(),
    };
    let wanted = by_greed(&wide(&set_up.table), delay, buffer, within, slots as usize);
    let wanted = said(wanted)?;
    same("trace", wide(&found.trace), wanted.trace)?;
    same("loss", u64::from(found.loss), wanted.loss)?;
    let file = said(stream::read(&set_up.stream(&found.trace).to_bytes()))?;
    same("file", &file.arrivals, &wide(&found.trace))?;
    let dropped = said(trace::rows(&file))?
        .iter()
        .map(|row| row.dropped)
        .sum();
    same("loss of the file", u64::from(found.loss), dropped)
}

#[test]
fn drawn_set_ups() {
    for_each_drawn(DRAWN, |dice| {
        let drawn = draw::any(dice);
        let set_up = SetUp {
            table: drawn.table,
            delay: drawn.header.delay,
            buffer: drawn.header.buffer,
        };
        let (slots, few) = (dice.below(40), dice.below(100));
        let in_slot = dice.pick([few, few, 0, 1_000_000]);
        let in_all = dice.below(slots * in_slot + 2);
        check(&set_up, slots, in_slot, in_all).map_err(|problem| format!("{set_up:?}: {problem}"))
    });
}

pub fn script() -> Script {
    let program = env!("CARGO_BIN_EXE_worst-trace");
    Script::new("bin/worst-trace", program, &ASKED, PRINTED)
}

/// The arguments asked for, with one of them replaced.
fn with<'a>(place: usize, word: &'a str) -> [&'a str; 6] {
    let mut asked: [&'a str; 6] = ASKED;
    asked[place] = word;
    asked
}

#[test]
fn traces_are_printed() {
    let stage = script().stage;
    let of = |words: &[&str]| stage.run(words);
    of(&ASKED).check_printed(PRINTED);
    of(&with(5, "99999999999999999999")).check_printed("trace 5 5 5 5\narrived 20, lost 12\n");
    of(&with(3, "0")).check_printed("trace\narrived 0, lost 0\n");
    of(&with(1, "none")).check_printed("trace 5 5 2 0\narrived 12, lost 0\n");
    of(&with(2, "none")).check_printed(PRINTED);
    of(&with(1, "255")).check_printed("trace 5 5 2 0\narrived 12, lost 0\n");
    of(&with(2, "0")).check_printed("trace 5 5 2 0\narrived 12, lost 12\n");
    let long = of(&["0 0", "0", "none", "4096", "1000000", "4294967295"]);
    assert!(
        long.out
            .ends_with("\narrived 4096000000, lost 4096000000\n")
    );
    assert_eq!(long.out.matches(" 1000000").count(), 4_096);
    assert_eq!(stage.calls(PROVED), 0);
}

/// The file holds the trace; its loss table ends with the loss.
#[test]
fn a_stream_file_is_written() {
    let stage = script().stage;
    let words = [&ASKED[..], &["--stream", "worst.stream"]].concat();
    stage.run(&words).check_printed(PRINTED);
    let file = fs::read(stage.path("worst.stream")).expect("the file");
    let table = text::printed(&file);
    assert!(table.starts_with("slot arrived admitted dropped departed held\n1 5 3 2 2 1\n"));
    assert!(table.ends_with("\ntotal 12 6 6 6 0\n"), "{table}");
    let again = [&["--stream=other.stream"][..], &ASKED].concat();
    stage.run(&again).check_printed(PRINTED);
    assert_eq!(fs::read(stage.path("other.stream")).ok(), Some(file));
}

#[test]
fn a_stream_file_that_cannot_be_written_is_said() {
    let stage = script().stage;
    for (file, words) in [
        (
            "streams",
            "the file 'streams' could not be written: Is a directory",
        ),
        ("no/such", "'no/such' could not be written: No such file"),
        ("/dev/full", "'/dev/full' could not be written: No space"),
    ] {
        let words_given = [&ASKED[..], &["--stream", file]].concat();
        stage.run(&words_given).check_problem(1, words);
    }
    // What is refused is not written.
    let refused = [&with(1, "65")[..], &["--stream", "refused.stream"]].concat();
    stage.run(&refused).check_problem(1, "refused 6: ");
    assert!(!stage.path("refused.stream").exists());
}

#[test]
fn help_and_wrong_usage() {
    let [seven, no_word, no_file] =
        ["1", "--stream", "--stream="].map(|word| [&ASKED[..], &[word]].concat());
    let six = "a table, two limits, the slots";
    let wrong = [
        (&[][..], six),
        (&ASKED[..5], six),
        (&seven, six),
        (&no_word, "'--stream' needs"),
        (&no_file, "'--stream' needs a file"),
    ];
    let usage = "TABLE DELAY BUFFER SLOTS MOST_IN_SLOT MOST_IN_ALL [--stream FILE]";
    script().check_usage(usage, &wrong);
}

#[test]
fn what_is_no_number_is_said() {
    let stage = script().stage;
    for (place, word, words) in [
        (0, "0,2", "the table's entry \"0,2\" is no number"),
        (
            1,
            "no",
            "the delay limit \"no\" is no number, and not the word none",
        ),
        (
            2,
            "-1",
            "the buffer limit \"-1\" is no number, and not the word",
        ),
        (3, "none", "the number of slots \"none\" is no number"),
        (4, "", "the most in a slot \"\" is no number"),
        (5, "1.5", "the most in all \"1.5\" is no number"),
    ] {
        stage.run(&with(place, word)).check_problem(2, words);
    }
}

#[test]
fn refused_arguments_say_their_number() {
    let stage = script().stage;
    let far = "99999999999999999999";
    for (place, word, words) in [
        (0, "0", "refused 1: "),
        (0, "7 2", "refused 2: "),
        (0, "0 1000001", "refused 3: "),
        (0, "0 3 2", "refused 4: "),
        (1, "65", "refused 6: "),
        (1, far, "refused 6: "),
        (2, "1000001", "refused 7: "),
        (2, far, "refused 7: "),
        (3, "4097", "refused 10: "),
        (3, far, "refused 10: "),
        (4, "1000001", "refused 8: "),
        (4, far, "refused 8: "),
    ] {
        stage.run(&with(place, word)).check_problem(1, words);
    }
    let both = ["0 2 3", "none", "none", far, far, far];
    stage
        .run(&both)
        .check_problem(1, "refused 23: both limits none");
}
