//! Certificates beside tables, and what the proved checker says of both.

use std::fs;

use reference::layout::{NO_BUFFER, NO_DELAY, StreamFile};
use tests_program::samples::{ACCEPTED, bytes};
use tests_program::stage::Stage;

use super::{ASKED, HEADING, check_tables, names, read, script};

const VERIFY: [&str; 3] = ["--verify", "streams", "tables"];

fn put(stage: &Stage, name: &str, bytes: impl AsRef<[u8]>) {
    fs::write(stage.path(name), bytes).expect("a file");
}

#[test]
fn those_of_the_samples() {
    let stage = script().stage;
    assert_eq!(stage.run(&ASKED).status, Some(3));
    for name in ACCEPTED {
        let found = fs::read(stage.path(&format!("tables/{name}.certificate")));
        assert_eq!(found.expect("a certificate"), bytes(name, "certificate"));
    }
    let found = names(&stage, "tables");
    let found = found.iter().filter(|name| name.ends_with(".certificate"));
    assert_eq!(found.count(), ACCEPTED.len());
    let summary = read(&stage, "tables/summary.txt");
    for (name, certified) in [("bella", "42"), ("no-limits", "-"), ("refused", "-")] {
        let line = summary
            .lines()
            .find(|line| line.split('\t').next() == Some(name));
        let fields: Vec<&str> = line.expect("a line").split('\t').collect();
        assert_eq!((fields.len(), fields[10]), (12, certified));
        assert_eq!(fields[11] == "-", certified == "-");
    }
}

#[test]
fn slots_whose_deadlines_are_after_the_last_are_not_certified() {
    let stage = script().stage;
    let early = StreamFile::of_arrivals(&[0, 2, 3], (3, 9), &[5, 0, 4, 9, 9, 9]);
    put(&stage, "streams/early.stream", early.to_bytes());
    let none = StreamFile::of_arrivals(&[0, 2, 3], (3, 9), &[]);
    put(&stage, "streams/none.stream", none.to_bytes());
    assert_eq!(stage.run(&ASKED).status, Some(3));
    check_tables(&stage);
    let last = |name: &str| {
        let text = read(&stage, &format!("tables/{name}.certificate"));
        text.lines().last().map(String::from)
    };
    assert_eq!(last("early").as_deref(), Some("certified 3 of 6 slots"));
    assert_eq!(last("none").as_deref(), Some("certified 0 of 0 slots"));
    assert_eq!(stage.run(&VERIFY).status, Some(0));
}

#[test]
fn a_stream_that_has_none_any_more_keeps_none() {
    let stage = script().stage;
    assert_eq!(stage.run(&ASKED).status, Some(3));
    let free = StreamFile::of_arrivals(&[0, 2, 3], (NO_DELAY, NO_BUFFER), &[5, 0, 4]);
    put(&stage, "streams/bella.stream", free.to_bytes());
    put(&stage, "streams/long.stream", "nineteen bytes, yes");
    let ended = stage.run(&VERIFY);
    assert_eq!(ended.status, Some(3));
    for name in ["bella", "long"] {
        let said = format!("{name}.certificate is there, and its stream has none\n");
        assert!(ended.out.contains(&said), "{ended:?}");
    }
    assert_eq!(stage.run(&ASKED).status, Some(3));
    check_tables(&stage);
    assert_eq!(stage.run(&VERIFY).status, Some(0));
}

#[test]
fn a_folder_from_before_there_were_certificates_is_taken_up() {
    let stage = script().stage;
    let before = HEADING.replace("\tcertified\tcertificate SHA-256", "");
    stage.write("tables/summary.txt", &before);
    put(&stage, "tables/bella.table", bytes("bella", "table"));
    assert_eq!(stage.run(&ASKED).status, Some(3));
    check_tables(&stage);
}

/// A text of the samples with some words replaced, which are there.
fn bent(name: &str, ending: &str, from: &str, to: &str) -> String {
    let text = String::from_utf8(bytes(name, ending)).expect("a text");
    assert!(text.contains(from), "{from}");
    text.replacen(from, to, 1)
}

#[test]
fn the_checker_says_what_does_not_hold() {
    let stage = script().stage;
    assert_eq!(stage.run(&ASKED).status, Some(3));
    let cases = [
        (
            "table",
            "\n13 37 30 7 5 27\n",
            "\n13 37 31 6 5 28\n",
            "bella.table differs from line 14 on\nbella.table: slot 14: held has to be 24\n",
            [1, 3],
        ),
        (
            "certificate",
            "\n13 88 0 delay 88",
            "\n13 88 0 buffer 88",
            "bella.certificate differs from line 14 on\nbella.certificate: slot 13: the admitted link does not hold\n",
            [0, 3],
        ),
        (
            "certificate",
            "certified 42 of",
            "certified 41 of",
            "bella.certificate differs from line 44 on\nbella.certificate: line 44: has to be 'certified 42 of 42 slots'\n",
            [0, 3],
        ),
        // Another link that holds is accepted, and still is not what is printed.
        (
            "certificate",
            "\n3 38 1 arrivals 2 ",
            "\n3 38 2 arrivals 1 ",
            "bella.certificate differs from line 4 on\n",
            [0, 4],
        ),
    ];
    for (ending, from, to, said, [differ, accepted]) in cases {
        let file = format!("tables/bella.{ending}");
        put(&stage, &file, bent("bella", ending, from, to));
        let ended = stage.run(&VERIFY);
        let counted = format!(
            "{differ} of 6 tables differ\n{accepted} of 4 certificates accepted by the proved checker\n"
        );
        assert_eq!(
            (ended.status, ended.out),
            (Some(3), format!("{said}{counted}"))
        );
        put(&stage, &file, bytes("bella", ending));
    }
    fs::remove_file(stage.path("tables/bella.certificate")).expect("a certificate");
    let ended = stage.run(&VERIFY);
    assert_eq!(ended.status, Some(3));
    assert!(
        ended.out.starts_with("bella.certificate is missing\n"),
        "{ended:?}"
    );
    assert!(
        ended.out.contains("\n3 of 4 certificates accepted "),
        "{ended:?}"
    );
}
