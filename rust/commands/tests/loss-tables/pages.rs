//! Pages as a reader has them: what stands in them beside table, certificate and summary, names of any
//! kind, links, and what is to be typed.

use std::ffi::OsStr;
use std::fs;
use std::os::unix::ffi::OsStrExt;

use reference::layout::StreamFile;
use tests_program::samples::{ACCEPTED, SAMPLES};
use tests_program::stage::{Stage, repository};

use super::page_reader::{Page, pages};
use super::reasons::Reasons;
use super::{digest, read, script};

const PAGES: [&str; 3] = ["--pages", "streams", "tables"];
/// No page is longer.
const MOST_BYTES: usize = 2_000_000;

/// A stream's page is there with what it rests on.
fn check_page(stage: &Stage, page: &Page, name: &str) {
    let file = fs::read(stage.path(&format!("tables/{name}.stream"))).expect("a stream");
    let stream = StreamFile::from_bytes(&file).expect("a stream");
    let table = read(stage, &format!("tables/{name}.table"));
    let rows: Vec<&str> = table.lines().skip(1).collect();
    let certificate = read(stage, &format!("tables/{name}.certificate"));
    let found = page.table("Packets of each slot");
    assert_eq!(found.len(), rows.len() - 1, "{name}");
    let mut reasons = Reasons::of(&stream, &certificate);
    for (row, found) in rows.iter().zip(found) {
        assert_eq!(found[..6].join(" "), *row);
        let [why, by] = reasons.next(row);
        assert_eq!(found[6..], [why, by], "{name}");
    }
    let files = ["stream", "table", "certificate"].map(|ending| format!("{name}.{ending}"));
    let digests: Vec<Vec<String>> = files
        .iter()
        .map(|file| vec![file.clone(), digest(stage, &format!("tables/{file}"))])
        .collect();
    assert_eq!(page.table("Files"), digests);
    let cited = page.typed.join("\n");
    assert!(
        digests.iter().all(|file| cited.contains(&file[1])),
        "{cited}"
    );
    let entries = page
        .table("Entries")
        .iter()
        .map(|row| row[1].replace(',', ""));
    let table = stream.table.iter().map(u32::to_string);
    assert_eq!(entries.collect::<Vec<_>>(), table.collect::<Vec<_>>());
}

fn put(stage: &Stage, name: &str, bytes: impl AsRef<[u8]>) {
    fs::write(stage.path(name), bytes).expect("a file");
}

#[test]
fn rows_and_reasons_are_those_of_table_and_certificate() {
    let stage = script().stage;
    let early = StreamFile::of_arrivals(&[0, 2, 3], (3, 9), &[5, 0, 4, 9, 9, 0]);
    put(&stage, "streams/early.stream", early.to_bytes());
    // An entry above the sum of others.
    let open = StreamFile::of_arrivals(&[0, 3, 3, 9, 9, 40], (2, 9), &[12, 0, 9, 9, 0, 0]);
    put(&stage, "streams/open.stream", open.to_bytes());
    assert_eq!(stage.run(&PAGES).status, Some(3));
    let pages = pages(&stage, "tables");
    assert_eq!(pages.len(), SAMPLES.len() + 3);
    for name in ACCEPTED.into_iter().chain(["early", "open"]) {
        check_page(&stage, &pages[&format!("{name}.html")], name);
    }
    let rows = |name: &str| pages[name].table("Packets of each slot");
    let bella = rows("bella.html");
    assert_eq!(
        bella[12][6],
        "88 by slot 13: 0 by slot 0 and f(20) = 88, delay"
    );
    let dropped = |limit: &str| -> Vec<&str> {
        let rows = bella.iter().filter(|row| row[7] == limit);
        rows.map(|row| &*row[0]).collect()
    };
    assert_eq!(dropped("buffer limit"), ["1"]);
    assert_eq!(dropped("delay limit"), ["13", "25"]);
    let words = |word: &str| {
        rows("early.html")
            .iter()
            .filter(|row| row[6].contains(word))
            .count()
    };
    assert_eq!(
        (
            words(": not certified, since slot"),
            words(", which is not certified, and ")
        ),
        (2, 1)
    );
    let free = rows("no-limits.html");
    assert_eq!(free[2][6..], ["9 by slot 3: all that arrived", ""]);
    // The words in docs/FORMAT.md.
    let format = fs::read_to_string(repository("docs/FORMAT.md")).expect("a page");
    let told: Vec<&str> = format
        .split('`')
        .skip(1)
        .step_by(2)
        .filter(|words| words.contains(" by slot "))
        .collect();
    assert_eq!(told.len(), 6);
    for words in told {
        let tables = pages.values().flat_map(|page| page.tables.values());
        assert!(
            tables.flatten().flatten().any(|cell| cell == words),
            "{words}"
        );
    }
    // Where the closure is below the table, it is told with the entries that make it up.
    let closed: Vec<&str> = pages["open.html"]
        .table("Entries")
        .iter()
        .map(|row| &*row[2])
        .collect();
    let wanted = [
        "",
        "",
        "",
        "f(3) = 6 = table(1) + table(2)",
        "f(4) = 6 = 2 × table(2)",
        "f(5) = 9 = table(1) + 2 × table(2)",
    ];
    assert_eq!(closed, wanted);
    assert!(
        pages["bella.html"]
            .table("Entries")
            .iter()
            .all(|row| row.len() == 2)
    );
}

#[test]
fn pictures_are_those_of_loss_curve() {
    let stage = script().stage;
    assert_eq!(stage.run(&PAGES).status, Some(3));
    for name in ACCEPTED.into_iter().chain(["no-limits"]) {
        let mut draws = stage.system(env!("CARGO_BIN_EXE_loss-curve"));
        let file = format!("streams/{name}.stream");
        let picture = stage.ended(draws.args(["target/bin/loss_table", &file, "", "", "", ""]));
        picture.check_printed(&picture.out);
        let page = read(&stage, &format!("tables/{name}.html"));
        assert!(page.contains(&picture.out), "{name}");
    }
}

#[test]
fn the_index_has_the_numbers_of_the_summary() {
    let stage = script().stage;
    let early = StreamFile::of_arrivals(&[0, 2, 3], (3, 9), &[5, 0, 4, 9, 9, 9]);
    put(&stage, "streams/early.stream", early.to_bytes());
    let none = StreamFile::of_arrivals(&[0, 2, 3], (3, 9), &[]);
    put(&stage, "streams/none.stream", none.to_bytes());
    assert_eq!(stage.run(&PAGES).status, Some(3));
    let mut pages = pages(&stage, "tables");
    let index = pages.remove("index.html").expect("an index");
    let rows = index.table("The streams");
    let summary = read(&stage, "tables/summary.txt");
    let lines: Vec<Vec<&str>> = summary
        .lines()
        .skip(1)
        .map(|line| line.split('\t').collect())
        .collect();
    assert_eq!(rows.len(), lines.len() + 1);
    for (row, line) in rows.iter().zip(&lines) {
        // Name, slots, arrived, dropped and both peaks.
        let plain = |place: usize| row[place].replace(',', "");
        assert_eq!(row[0], line[0]);
        if line[0] == "refused" {
            assert_eq!((row[1..11].concat(), &*row[11]), ("-".repeat(10), line[1]));
        } else {
            let found = [1, 5, 6, 8, 9].map(plain);
            assert_eq!(
                found.each_ref().map(|word| &**word),
                [line[1], line[2], line[4], line[6], line[7]]
            );
        }
        let number = |place: usize| line[place].parse::<f64>().unwrap_or(0.0);
        if number(2) > 0.0 {
            assert_eq!(row[7], format!("{:.2}", 100.0 * number(4) / number(2)));
        }
    }
    let row = |name: &str| rows.iter().find(|row| row[0] == name).expect("a row");
    assert_eq!(row("bella")[2..5], ["10", "7", "36"]);
    assert_eq!(row("no-limits")[3..5], ["none", "none"]);
    assert_eq!(row("none")[7], "-");
    let certified = |name: &str| &*row(name)[11];
    assert_eq!(
        (certified("long"), certified("none")),
        ("all slots", "no slots")
    );
    assert_eq!(
        certified("early"),
        "3 of 6 slots; the others' deadlines are after the last"
    );
    assert_eq!(
        certified("no-limits"),
        "no: both limits are none, and nothing is lost"
    );
    let sum = |place: usize| -> u64 {
        lines
            .iter()
            .filter_map(|line| line[place].parse::<u64>().ok())
            .sum()
    };
    let sums = &rows[lines.len()];
    let plain = |place: usize| sums[place].replace(',', "");
    assert_eq!(sums[0], "8 streams, 1 refused");
    assert_eq!(
        [1, 5, 6].map(plain),
        [sum(1), sum(2), sum(4)].map(|sum| sum.to_string())
    );
    assert_eq!(plain(11), format!("{} of {} slots", sum(10), sum(1)));
    let files = [vec![
        String::from("summary.txt"),
        digest(&stage, "tables/summary.txt"),
    ]];
    assert_eq!(index.table("Files"), files);
}

#[test]
fn names_of_any_kind_can_be_followed_and_typed() {
    let stage = script().stage;
    let names: [&[u8]; 15] = [
        b"two  words ",
        b"it's \"quoted\"",
        b"a & b <c> d; &amp;",
        "Übung ß 数".as_bytes(),
        b"100%20#a?b=c",
        b"back\\slash {x}_$y~^",
        b"-dash",
        b"$(touch made) `x` *",
        b"mailto:me",
        b"caf\xe9",
        b"\x01?\x7f",
        "\u{feff}\u{ffff}".as_bytes(),
        b"<script>alert(1)<script>",
        b"summary",
        b"'",
    ];
    fs::create_dir(stage.path("odd")).expect("a folder");
    let slots = |name: &[u8]| 1 + name.len() % 4;
    for name in names {
        let file = StreamFile::of_arrivals(&[0, 2, 3], (0, 9), &vec![5; slots(name)]);
        let path = stage
            .path("odd")
            .join(OsStr::from_bytes(&[name, &b".stream"[..]].concat()));
        fs::write(path, file.to_bytes()).expect("a file");
    }
    let ended = stage.run(&["--pages", "odd", "tables"]);
    assert_eq!(ended.status, Some(0), "{ended:?}");
    let verified = stage.run(&["--pages", "--verify", "tables", "tables"]);
    assert_eq!(verified.status, Some(0), "{verified:?}");
    let pages = pages(&stage, "tables");
    assert_eq!(pages["index.html"].table("The streams").len(), pages.len());
    for (name, page) in pages.iter().filter(|(name, _)| *name != "index.html") {
        let (command, verdict) = (&page.typed[0], &page.typed[1]);
        let shell = format!("cd tables && {command}");
        let ended = stage.ended(stage.system("bash").args(["-c", &shell]));
        ended.check_printed(&format!("{verdict}\n"));
        let cited = page.typed[3..].join("\n");
        assert_eq!(
            cited.matches('{').count(),
            cited.matches('}').count(),
            "{name}"
        );
    }
    assert!(!stage.path("tables/made").exists());
    assert!(
        pages.contains_key("a & b <c> d; &amp;.html"),
        "{:?}",
        pages.keys()
    );
}

#[test]
fn a_page_of_4096_rows_is_below_2_mb_and_has_a_link_for_each() {
    let stage = script().stage;
    let table: Vec<u32> = (0..=64).map(|window| window * 15_625).collect();
    let counts: Vec<u32> = (0..4_096)
        .map(|slot| 1_000_000 - slot % 7 * 142_857)
        .collect();
    for (name, limits) in [("buffer", (255, 1_000_000)), ("delay", (64, 1_000_000))] {
        let file = StreamFile::of_arrivals(&table, limits, &counts);
        put(&stage, &format!("streams/{name}.stream"), file.to_bytes());
    }
    assert_eq!(stage.run(&PAGES).status, Some(3));
    let pages = pages(&stage, "tables");
    for name in ["buffer", "delay", "long"] {
        check_page(&stage, &pages[&format!("{name}.html")], name);
        let page = read(&stage, &format!("tables/{name}.html"));
        assert!(page.len() < MOST_BYTES, "{name}: {}", page.len());
        for slot in 1..=4_096 {
            assert!(page.contains(&format!("<tr id=\"slot-{slot}\"")), "{slot}");
        }
    }
}
