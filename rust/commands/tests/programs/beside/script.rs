//! The script `beside`.

use std::fs;

use reference::layout::{NO_BUFFER, NO_DELAY, StreamFile};
use tests_program::over_library::Script;
use tests_program::samples::{ACCEPTED, bytes};
use tests_program::stage::{Ended, PROVED, Stage};

const ASKED: [&str; 2] = ["streams/six-packet-burst.stream", "rows.txt"];
const ROWS: &str = "admitted departed\n4 4\n3 3\n4 4\n4 4\n";
const PRINTED: &str = "permitted: every rule is kept in slots 1 to 4
losses first differ by slot 2: 4 ours, 5 theirs
lost by slot 4: 8 ours, 9 theirs
1 packet lost that need not have been
";

/// The rows that are asked for stand in the stage.
pub fn script() -> Script {
    let program = env!("CARGO_BIN_EXE_beside");
    let script = Script::new("bin/beside", program, &ASKED, PRINTED);
    script.stage.write(ASKED[1], ROWS);
    script
}

/// The six-packet burst with rows of this text.
fn run(stage: &Stage, text: &str) -> Ended {
    stage.write("others.txt", text);
    stage.run(&[ASKED[0], "others.txt"])
}

#[test]
fn our_own_tables_are_permitted() {
    let stage = script().stage;
    for sample in ACCEPTED {
        let (stream, table) = (bytes(sample, "stream"), bytes(sample, "table"));
        let path = format!("streams/{sample}.stream");
        stage.write("ours.table", &String::from_utf8_lossy(&table));
        let ended = stage.run(&[&path, "ours.table"]);
        assert_eq!((ended.status, &*ended.err), (Some(0), ""), "{ended:?}");
        assert!(ended.out.starts_with("permitted: every rule is kept"));
        assert!(ended.out.contains("\nlosses are the same by every slot\n"));
        let fed = stage.feed(&[&path, "-"], &table);
        fed.check_printed(&ended.out);
        let fed = stage.feed(&["-", "ours.table"], &stream);
        fed.check_printed(&ended.out);
    }
    assert_eq!(stage.calls(PROVED), 0);
}

#[test]
fn rows_of_any_text_with_a_heading() {
    let stage = script().stage;
    stage.run(&ASKED).check_printed(PRINTED);
    for text in [
        "departed,name,admitted\n4,ours,4\n3,,3\n4,,4\n4,,4\n",
        "\nslot\tarrived\tadmitted\tdeparted\n1\t6\t4\t4\n2\t6\t3\t3\n3\t6\t4\t4\n4\t6\t4\t4\ntotal\t24\t15\t15\n\n",
    ] {
        run(&stage, text).check_printed(PRINTED);
    }
}

#[test]
fn a_broken_rule_has_a_status_of_its_own() {
    let stage = script().stage;
    let ended = run(&stage, "admitted departed\n4 4\n4 4\n4 4\n5 4\n");
    assert_eq!((ended.status, &*ended.err), (Some(3), ""), "{ended:?}");
    let wanted = "breaks the buffer limit: 5 held before the departures of slot 4, 4 may be
losses first differ by slot 4: 8 ours, 7 theirs
lost by slot 4: 8 ours, 7 theirs
not permitted: a loss below ours shows nothing
";
    assert_eq!(ended.out, wanted);
}

#[test]
fn errors_in_rows_name_their_line() {
    let stage = script().stage;
    for (text, words) in [
        ("", "'others.txt': there is no heading and no row"),
        (
            "refused 6\n",
            "line 1: the heading names no column 'admitted'",
        ),
        (
            "admitted departed\n4 4\n4 four\n",
            "line 3: \"four\" is no number",
        ),
        (
            "admitted departed\n4 4\n-1 4\n",
            "line 3: \"-1\" is no number",
        ),
        (
            "admitted departed\n4 4\n4 4\n",
            "line 3: the rows end after slot 2 of 4",
        ),
        (
            "admitted departed\n4 4\n4 4\n4 4\n4 4\n4 4\n",
            "line 6: a row more than the stream's 4 slots",
        ),
        (
            "slot admitted departed\n1 4 4\n3 4 4\n",
            "line 3: slot \"3\", where slot 2 has to stand",
        ),
        (
            "arrived admitted departed\n6 4 4\n5 4 4\n",
            "line 3: 5 arrived in slot 2, where the stream has 6",
        ),
        (
            "admitted departed\n4294967296 4\n",
            "line 2: 4294967296 is above 4,294,967,295",
        ),
    ] {
        run(&stage, text).check_problem(1, words);
    }
    fs::write(stage.path("bytes"), b"admitted departed\n4 4\n\xff 4\n").expect("a file");
    let ended = stage.run(&[ASKED[0], "bytes"]);
    ended.check_problem(1, "line 3: \"\u{fffd}\" is no number");
}

#[test]
fn both_limits_none_leave_nothing_to_lose() {
    let stage = script().stage;
    let mut file = StreamFile::from_bytes(&bytes("six-packet-burst", "stream")).expect("a file");
    file.header.delay = NO_DELAY;
    file.header.buffer = NO_BUFFER;
    fs::write(stage.path("none.stream"), file.to_bytes()).expect("a file");
    let ended = stage.run(&["none.stream", "rows.txt"]);
    let words = "'none.stream': refused 23: both limits none; such a stream loses nothing, and no rows are judged";
    ended.check_problem(1, words);
}

#[test]
fn what_is_refused_or_cannot_be_read_is_said() {
    let stage = script().stage;
    let of = |stream, rows| stage.run(&[stream, rows]);
    of("streams", ASKED[1]).check_problem(1, "'streams' is a directory");
    of("no such", ASKED[1]).check_problem(1, "no file 'no such'");
    let words = "the file 'no such' could not be read: No such file";
    of(ASKED[0], "no such").check_problem(1, words);
    let words = "the file 'streams' could not be read: Is a directory";
    of(ASKED[0], "streams").check_problem(1, words);
    of(ASKED[0], "/dev/zero").check_problem(1, "longer than any rows");
    let refused = of("streams/refused.stream", ASKED[1]);
    refused.check_problem(1, "'streams/refused.stream': refused 6: delay");
    let folder = stage.feed_folder(&[ASKED[0], "-"], "streams");
    folder.check_problem(1, "standard input could not be read");
}

#[test]
fn help_and_wrong_usage() {
    let two = "a stream file and rows";
    let wrong = [
        (&[][..], two),
        (&ASKED[..1], two),
        (&["a", "b", "c"], two),
        (&["-", "-"], "the stream file or the rows, not both"),
    ];
    script().check_usage("STREAM ROWS", &wrong);
}
