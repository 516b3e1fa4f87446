//! The script's verdicts on printed tables and certificates.

use std::fs;

use reference::layout::{NO_BUFFER, StreamFile};
use tests_program::samples::bytes;
use tests_program::stage::{Ended, Stage};

use super::{CERTIFIED, CHECKED, PRINTED, STREAM, script, table};

/// The six-packet burst with this table and this certificate.
fn check(stage: &Stage, table: &str, certificate: &str) -> Ended {
    stage.write("some.table", table);
    stage.write("some.certificate", certificate);
    stage.run(&["--check", STREAM, "some.table", "some.certificate"])
}

#[test]
fn samples_are_certified() {
    let stage = script().stage;
    stage.run(&CHECKED).check_printed(CERTIFIED);
    for (place, word) in CHECKED.iter().enumerate().skip(1) {
        let mut words = CHECKED;
        words[place] = "-";
        let input = fs::read(stage.path(word)).expect("a file");
        stage.feed(&words, &input).check_printed(CERTIFIED);
    }
    for (sample, slots) in [("bella", 42), ("delay-only", 14), ("long", 4_096)] {
        for ending in ["table", "certificate"] {
            stage.copy(&format!("streams/{sample}.{ending}"));
        }
        let files = ["stream", "table", "certificate"].map(|e| format!("streams/{sample}.{e}"));
        let files = files.each_ref().map(|file| &**file);
        let ended = stage.run(&["--check", files[0], files[1], files[2]]);
        let wanted =
            format!("certified: no regulator could have lost fewer by any of {slots} slots\n");
        ended.check_printed(&wanted);
    }
}

#[test]
fn slots_without_a_link_do_not_count() {
    let stage = script().stage;
    let some = PRINTED.replace("2 8 0 buffer 8", "2 8 - - -");
    let some = some.replace("3 12 0 buffer 12", "3 12 2 buffer 4");
    let ended = check(&stage, &table(), &some);
    ended.check_problem(1, "line 6: has to be 'certified 2 of 4 slots'");
    let some = some.replace("certified 4", "certified 2");
    check(&stage, &table(), &some).check_printed("certified in 2 of 4 slots\n");
    let none = PRINTED
        .replace(" 0 buffer 4 ", " - - - ")
        .replace(" 0 buffer 8 ", " - - - ");
    let none = none
        .replace(" 0 buffer 12 ", " - - - ")
        .replace(" 0 buffer 16 ", " - - - ");
    let none = none.replace("certified 4", "certified 0");
    check(&stage, &table(), &none).check_printed("certified in 0 of 4 slots\n");
}

/// Table 0,1 and d 2, four packets in slot 1 of two: three are admitted, and no link leads to slot 1.
#[test]
fn an_arrivals_link_counts_all_that_arrived() {
    let stage = script().stage;
    let short = StreamFile::of_arrivals(&[0, 1], (2, NO_BUFFER), &[4, 0]);
    fs::write(stage.path("short.stream"), short.to_bytes()).expect("a file");
    stage.write(
        "short.table",
        "slot arrived admitted dropped departed held\n1 4 3 1 1 2\n2 0 0 0 1 1\ntotal 4 3 1 2 1\n",
    );
    let run = |second: &str| {
        let text = format!(
            "slot admitted from by amount departed from amount\n1 3 - - - 1 0 1\n2 3 {second} 2 0 2\ncertified 0 of 2 slots\n"
        );
        stage.write("short.certificate", &text);
        let words = [
            "--check",
            "short.stream",
            "short.table",
            "short.certificate",
        ];
        stage.run(&words)
    };
    run("1 arrivals 0").check_printed("certified in 0 of 2 slots\n");
    run("- - -").check_printed("certified in 0 of 2 slots\n");
    for second in ["0 arrivals 3", "0 arrivals 4", "0 delay 3", "1 buffer 0"] {
        let words = "slot 2: the admitted link does not hold\n";
        run(second).check_problem(1, words);
    }
}

#[test]
fn what_fails_in_a_table_names_its_slot_or_line() {
    let stage = script().stage;
    let good = table();
    for (from, to, words) in [
        ("2 6 4 2 4 0", "2 5 4 1 4 0", "slot 2: arrived has to be 6"),
        ("2 6 4 2 4 0", "2 6 4 1 4 0", "slot 2: dropped has to be 2"),
        ("2 6 4 2 4 0", "2 6 4 2 4 1", "slot 2: held has to be 0"),
        (
            "2 6 4 2 4 0",
            "2 6 7 0 4 3",
            "slot 2: more is admitted than arrives",
        ),
        (
            "2 6 4 2 4 0",
            "2 6 4 2 5 0",
            "slot 2: more has departed than was admitted",
        ),
        (
            "2 6 4 2 4 0",
            "2 6 5 1 5 0",
            "slot 2: more departs in 1 slots than the table has",
        ),
        (
            "2 6 4 2 4 0",
            "2 6 5 1 4 1",
            "slot 2: more is there before departures than the buffer limit",
        ),
        (
            "total 24",
            "total 25",
            "line 6: has to be 'total 24 16 8 16 0'",
        ),
        (
            "8 16 0\n",
            "8 16 0",
            "line 6: has to be 'total 24 16 8 16 0'",
        ),
        ("8 16 0\n", "8 16 0\n\n", "line 7: has to be the end"),
        ("8 16 0\n", "8 16 0\n5", "line 7: has to be the end"),
        ("2 6 4 2 4 0\n", "", "line 3: has to be the row of slot 2"),
        (
            "2 6 4 2 4 0",
            "2 6 4 2 4",
            "line 3: has to be the row of slot 2",
        ),
        (
            "2 6 4 2 4 0",
            "2 6 4 2 4 00",
            "line 3: has to be the row of slot 2",
        ),
        (
            "2 6 4 2 4 0",
            "2  6 4 2 4 0",
            "line 3: has to be the row of slot 2",
        ),
        (
            "held\n",
            "held\r\n",
            "line 1: has to be 'slot arrived admitted dropped departed held'",
        ),
    ] {
        let damaged = good.replacen(from, to, 1);
        assert_ne!(damaged, good, "{from}");
        // A certificate is looked at after the table.
        for certificate in [PRINTED, "none"] {
            let ended = check(&stage, &damaged, certificate);
            ended.check_problem(1, &format!("the file 'some.table': {words}\n"));
        }
    }
    // Those of other streams have more slots, or fewer.
    for (sample, words) in [
        ("bella", "line 7: has to be the end"),
        ("no-limits", "line 5: has to be the row of slot 4"),
    ] {
        let other = String::from_utf8_lossy(&bytes(sample, "table")).into_owned();
        check(&stage, &other, PRINTED).check_problem(1, words);
    }
}

#[test]
fn what_fails_in_a_certificate_names_its_slot_or_line() {
    let stage = script().stage;
    let row = "3 12 0 buffer 12 12 0 12";
    for (from, to, words) in [
        (
            row,
            "3 13 0 buffer 12 12 0 12",
            "slot 3: admitted has to be 12",
        ),
        (
            row,
            "3 12 3 buffer 12 12 0 12",
            "slot 3: the admitted link does not hold",
        ),
        (
            row,
            "3 12 0 arrivals 12 12 0 12",
            "slot 3: the admitted link does not hold",
        ),
        (
            row,
            "3 12 0 delay 12 12 0 12",
            "slot 3: the admitted link does not hold",
        ),
        (
            row,
            "3 12 0 buffer 11 12 0 12",
            "slot 3: the admitted link's amount has to be 12",
        ),
        (
            row,
            "3 12 0 buffer 12 11 0 12",
            "slot 3: departed has to be 12",
        ),
        (
            row,
            "3 12 0 buffer 12 12 1 12",
            "slot 3: the departed link's amount has to be 8",
        ),
        (
            row,
            "3 12 0 buffer 12 12 4 12",
            "slot 3: the departed link does not hold",
        ),
        (
            row,
            "3 12 0 buffer 12 12 0 13",
            "slot 3: the departed link's amount has to be 12",
        ),
        (
            row,
            "3 12 0 buffers 12 12 0 12",
            "line 4: has to be the row of slot 3",
        ),
        (
            row,
            "3 12 - - 12 12 0 12",
            "line 4: has to be the row of slot 3",
        ),
        (
            row,
            "3 12 0 buffer 12 12 - -",
            "line 4: has to be the row of slot 3",
        ),
        (
            "certified 4 of",
            "certified 3 of",
            "line 6: has to be 'certified 4 of 4 slots'",
        ),
        (
            "slots\n",
            "slots",
            "line 6: has to be 'certified 4 of 4 slots'",
        ),
        ("slots\n", "slots\n\n", "line 7: has to be the end"),
    ] {
        let damaged = PRINTED.replacen(from, to, 1);
        assert_ne!(damaged, PRINTED, "{to}");
        let ended = check(&stage, &table(), &damaged);
        ended.check_problem(1, &format!("the file 'some.certificate': {words}\n"));
    }
    let heading = "line 1: has to be 'slot admitted from by amount departed from amount'\n";
    for text in ["", &PRINTED.replace('\n', "\r\n"), &table()] {
        check(&stage, &table(), text).check_problem(1, heading);
    }
    fs::write(stage.path("bytes"), [PRINTED.as_bytes(), b"\xff"].concat()).expect("a file");
    let ended = stage.run(&["--check", STREAM, CHECKED[2], "bytes"]);
    ended.check_problem(1, "line 7: has to be the end");
}
