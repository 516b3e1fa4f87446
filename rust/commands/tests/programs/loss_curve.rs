//! `bin/loss-curve`: what is drawn is the table's, the picture in docs is the one that it draws, and bad
//! input gets one line and no picture.

#[allow(dead_code, reason = "its main is for the program")]
#[path = "../../src/bin/loss-curve/main.rs"]
mod program;

mod over_buffers;

use std::fs;

use commands::picture::curves::{Curve, Curves};
use commands::table::{Row, Table};
use reference::layout::{NO_BUFFER, NO_DELAY, StreamFile};
use tests_program::over_library::Script;
use tests_program::samples::bytes;
use tests_program::stage::{PROGRAM, Stage, repository};

const BELLA: &str = "streams/bella.stream";
/// A picture is below 1 MB, however long the stream.
const MOST_BYTES: usize = 1_000_000;

pub fn script() -> Script {
    Script {
        stage: Stage::over_both("bin/loss-curve", env!("CARGO_BIN_EXE_loss-curve")),
        arguments: &[BELLA],
        printed: "",
    }
}

fn drawn(stage: &Stage, arguments: &[&str]) -> String {
    let words = ["slot", "packets", "arrived", "admitted", "departed", "lost"];
    drawn_with(stage, arguments, &words)
}

/// A picture whose texts have these words.
fn drawn_with(stage: &Stage, arguments: &[&str], words: &[&str]) -> String {
    let ended = stage.run(arguments);
    ended.check_printed(&ended.out);
    check_page(&ended.out, words);
    ended.out
}

/// Elements alone, one a line, with text as text; nothing that runs or is fetched.
fn check_page(page: &str, words: &[&str]) {
    assert!(page.len() < MOST_BYTES);
    assert!(
        page.starts_with("<svg xmlns=\"http://www.w3.org/2000/svg\" ")
            && page.ends_with("</svg>\n")
    );
    for line in page.lines() {
        assert!(line.starts_with('<') && line.ends_with('>'), "{line}");
        let inner = &line[1..line.len() - 1];
        let texts = ["<text", "<title", "<desc"]
            .iter()
            .any(|tag| line.starts_with(tag));
        assert_eq!(
            inner.matches(['<', '>']).count(),
            if texts { 2 } else { 0 },
            "{line}"
        );
    }
    for sign in ["<script", "href", "url(", "<image", "<style", " on"] {
        let found = page
            .lines()
            .filter(|line| !line.contains("<title>") && !line.contains("<desc>"));
        assert!(!found.collect::<String>().contains(sign), "{sign}");
    }
    for word in words {
        let mut texts = page.lines().filter(|line| line.starts_with("<text"));
        assert!(texts.any(|line| line.contains(word)), "{word}");
    }
}

fn rows(sample: &str) -> Vec<Row> {
    match Table::read(&bytes(sample, "table")) {
        Some(Table::Of(rows)) => rows,
        other => panic!("{other:?}"),
    }
}

/// Sums of some packets through each slot, from a first one on.
fn sums(rows: &[Row], of: impl Fn(&Row) -> u64, first: usize) -> Curve {
    let mut sum = 0;
    let sums = rows.iter().map(|row| {
        sum += of(row) as i64;
        sum
    });
    let sums: Vec<i64> = [0].into_iter().chain(sums).collect();
    Curve {
        before: sums[first - 1],
        values: sums[first..].to_vec(),
    }
}

#[test]
fn curves_are_the_sums_of_rows() {
    for sample in ["bella", "six-packet-burst", "delay-only", "long"] {
        let rows = rows(sample);
        for first in [1, 2, rows.len()] {
            let slots = first..=rows.len();
            let found = Curves::of(&rows, &slots, |row| (row.admitted, row.departed));
            assert_eq!(found.arrived, sums(&rows, |row| row.arrived, first));
            assert_eq!(found.admitted, sums(&rows, |row| row.admitted, first));
            assert_eq!(found.departed, sums(&rows, |row| row.departed, first));
            assert_eq!(found.lost, sums(&rows, |row| row.dropped, first));
            let fills: Vec<i64> = rows
                .iter()
                .map(|row| (row.held + row.departed) as i64)
                .collect();
            assert_eq!(found.fill.values, fills[first - 1..]);
            let dropped = rows[first - 1..]
                .iter()
                .enumerate()
                .filter(|(_, row)| row.dropped > 0);
            let dropped: Vec<usize> = dropped.map(|(place, _)| place).collect();
            assert_eq!(found.lost.rises(), dropped);
        }
        let part = Curves::of(&rows, &(1..=2), |row| (row.admitted, row.departed));
        assert_eq!(
            part.arrived.values,
            sums(&rows, |row| row.arrived, 1).values[..2]
        );
    }
}

#[test]
fn the_picture_in_docs_is_the_one_that_is_drawn() {
    let picture = fs::read_to_string(repository("docs/bella.svg")).expect("a picture");
    assert_eq!(drawn(&script().stage, &[BELLA]), picture);
}

#[test]
fn totals_marks_and_limits_are_told() {
    let stage = script().stage;
    let rows = rows("bella");
    let page = drawn(&stage, &[BELLA]);
    let sum = |of: fn(&Row) -> u64| rows.iter().map(of).sum::<u64>();
    let dropped = rows.iter().enumerate().filter(|(_, row)| row.dropped > 0);
    let dropped: Vec<usize> = dropped.map(|(place, _)| place).collect();
    for words in [
        format!("arrived: {}<", sum(|row| row.arrived)),
        format!("admitted: {}<", sum(|row| row.admitted)),
        format!("departed: {}<", sum(|row| row.departed)),
        format!("lost, arrived less admitted: {}<", sum(|row| row.dropped)),
        format!("slots with dropped packets: {}<", dropped.len()),
    ] {
        assert!(page.contains(&words), "{words}");
    }
    // A mark stands over the middle of its slot, of which 42 share 785 points.
    let marks = page
        .lines()
        .find(|line| line.contains("v9"))
        .expect("marks");
    let places: Vec<String> = dropped
        .iter()
        .map(|place| format!("M{:.0} 414v9", 90.0 + 785.0 / 42.0 * (*place as f64 + 0.5)))
        .collect();
    assert!(
        marks.contains(&format!("\"{}\"", places.concat())),
        "{marks} {places:?}"
    );
    // The loss curve has a step for each of them.
    let lost = page
        .lines()
        .find(|line| line.contains("#D55E00\" stroke-width=\"2\"") && line.contains("H875"));
    assert_eq!(lost.expect("a curve").matches('V').count(), dropped.len());
}

#[test]
fn some_slots_a_rival_and_files_of_any_name() {
    let stage = script().stage;
    let rows = rows("bella");
    let sum = |of: fn(&Row) -> u64| rows[..20].iter().map(of).sum::<u64>();
    let some = drawn(&stage, &[BELLA, "--slots", "10-20"]);
    assert!(
        some.contains("bella.stream, slots 10 to 20; delay limit d = "),
        "{some}"
    );
    assert!(some.contains(&format!("arrived: {}<", sum(|row| row.arrived))));
    assert_eq!(drawn(&stage, &["--slots=10-20", BELLA]), some);
    assert!(drawn(&stage, &[BELLA, "--slots", "42-42"]).contains("slots 42 to 42"));
    let fed = stage.feed(&["-", "--slots", "10-20"], &bytes("bella", "stream"));
    assert_eq!(fed.out.replace("standard input", "bella.stream"), some);

    let rival = fs::read_to_string(repository("streams/bella.table")).expect("a table");
    stage.write("a <b> & c\n.rows", &rival);
    let beside = drawn(&stage, &["--rows", "a <b> & c\n.rows", BELLA]);
    assert!(
        beside.contains("; dashed: a &lt;b&gt; &amp; c?.rows<"),
        "{beside}"
    );
    assert_eq!(beside.matches("stroke-dasharray").count(), 8);
    // The same rows are the same curves.
    let path = |line: &&str| line.split('"').nth(1).unwrap_or_default().to_owned();
    let curves = |dashed: bool| -> Vec<String> {
        let lines = beside.lines().filter(|line| line.contains("H875\""));
        let lines = lines.filter(|line| line.contains("dasharray") == dashed);
        lines
            .filter(|line| !line.contains("#666666"))
            .map(|line| path(&line))
            .collect()
    };
    let ours = curves(false);
    assert!(curves(true).iter().all(|curve| ours.contains(curve)));
    assert_eq!((curves(true).len(), ours.len()), (4, 5));
    // A rival that keeps no rule is drawn all the same, below 0 too.
    let wild: String = (0..42).map(|_| "1000000\t4294967295\n").collect();
    stage.write("wild.rows", &format!("admitted\tdeparted\n{wild}"));
    let wild = drawn(&stage, &[BELLA, "--rows", "wild.rows"]);
    assert!(wild.contains(">\u{2212}"), "{wild}");
}

#[test]
fn long_streams_and_those_without_limits() {
    let stage = script().stage;
    let file = |limits: (u32, u32), counts: &[u32]| {
        StreamFile::of_arrivals(&[0, 200_000, 300_000], limits, counts)
    };
    let counts: Vec<u32> = (0..4_096).map(|slot| slot * 7_919 % 1_000_001).collect();
    let long = file((1, 400_001), &counts);
    fs::write(stage.path("long.stream"), long.to_bytes()).expect("a file");
    let rows: String = (0..4_096_u64)
        .map(|slot| format!("{} {}\n", slot * 104_729 % 900_001, slot * 7))
        .collect();
    stage.write("long.rows", &format!("admitted departed\n{rows}"));
    let page = drawn(&stage, &["long.stream", "--rows", "long.rows"]);
    assert!(page.contains("slots 1 to 4,096"));
    let free = file((NO_DELAY, NO_BUFFER), &[5, 0, 4]);
    fs::write(stage.path("free.stream"), free.to_bytes()).expect("a file");
    let page = drawn(&stage, &["free.stream"]);
    assert!(
        page.contains("slots 1 to 3; no delay limit, no buffer limit<"),
        "{page}"
    );
    assert!(
        page.contains("lost, arrived less admitted: 0<") && !page.contains(">q"),
        "{page}"
    );
    // A limit far above what waits leaves the fill its room.
    let far = file((5, 1_000_000), &[5, 0, 4]);
    fs::write(stage.path("far.stream"), far.to_bytes()).expect("a file");
    assert!(drawn(&stage, &["far.stream"]).contains("q, above the picture: 1,000,000<"));
    let none = file((5, 9), &[]);
    fs::write(stage.path("none.stream"), none.to_bytes()).expect("a file");
    stage
        .run(&["none.stream"])
        .check_problem(1, "a stream of no slots has no curve");
}

#[test]
fn help_and_wrong_usage() {
    let wrong = [
        (&[][..], "one stream file"),
        (&[BELLA, "b"], "one stream file"),
        (
            &[BELLA, "--slots"],
            "the option '--slots' needs a word after it",
        ),
        (&[BELLA, "--slots="], "names no slots"),
        (&[BELLA, "--rows", ""], "names no file"),
        (&[BELLA, "--rows", "-"], "rows are read from a file"),
    ];
    let usage =
        "FILE [--slots A-B] [--rows ROWS]\n       loss-curve FILE --buffers A-B [--delays D,D,..]";
    script().check_usage(usage, &wrong);
}

#[test]
fn slots_that_the_stream_does_not_have() {
    let stage = script().stage;
    for slots in [
        "0-5",
        "5-4",
        "1-43",
        "5",
        "1-",
        "-3",
        "1-2-3",
        "a-b",
        "1.0-2",
        "1-99999999999",
    ] {
        let ended = stage.run(&[BELLA, "--slots", slots]);
        ended.check_problem(2, "are not A-B with A from 1 to B and B at most 42");
    }
}

#[test]
fn what_cannot_be_read_is_said() {
    let stage = script().stage;
    for (words, said) in [
        (
            &["streams/refused.stream"][..],
            "'streams/refused.stream': refused 6: delay",
        ),
        (&["streams"], "is a directory"),
        (&["no such"], "no file 'no such'"),
        (&["-"], "standard input: refused 12"),
        (&[BELLA, "--rows", "streams"], "is a directory"),
        (&[BELLA, "--rows", "no such"], "no file 'no such'"),
        (
            &[BELLA, "--rows", BELLA],
            "'streams/bella.stream': line 2: the heading names no column",
        ),
    ] {
        stage.run(words).check_problem(1, said);
    }
    stage.write("short.rows", "admitted departed\n1 1\n");
    let short = stage.run(&[BELLA, "--rows", "short.rows"]);
    short.check_problem(1, "'short.rows': line 2: the rows end after slot 1 of 42");
    stage.script(PROGRAM, "echo slot arrived admitted dropped departed held");
    stage
        .run(&[BELLA])
        .check_problem(1, "broke off before its last line");
}
