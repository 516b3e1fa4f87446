//! What is lost over the buffer limit: the numbers are the reference's, also where they are read back from
//! the picture, and the picture in docs is the one that is drawn.

use std::fs;

use reference::layout::{NO_BUFFER, NO_DELAY, StreamFile};
use reference::{stream, trace};
use tests_program::cases::{for_each_drawn, same};
use tests_program::draw;
use tests_program::samples::bytes;
use tests_program::stage::{COMPILED, PROVED, Stage, repository};

use super::program::sizes::Losses;
use super::{BELLA, drawn_with};

const DRAWN: usize = 1_000;
/// As `docs/SIZING.md` says that its picture is made.
const IN_DOCS: [&str; 5] = [BELLA, "--buffers", "24-46", "--delays", "5,6,7,8,none"];

/// It needs no proved program.
fn stage() -> Stage {
    Stage::over_library("bin/loss-curve", env!("CARGO_BIN_EXE_loss-curve"))
}

fn drawn(stage: &Stage, arguments: &[&str]) -> String {
    drawn_with(stage, arguments, &["packets", "lost", "buffer limit q"])
}

/// What the reference loses by the last slot with two limits.
fn lost(file: &StreamFile, delay: u32, buffer: u32) -> u64 {
    let stream = stream::read(&file.to_bytes()).expect("an accepted stream");
    let (delay, buffer) = (delay.into(), buffer.into());
    let lengths = [stream.arrivals.len(); 3];
    let lists = trace::run(&stream.table, delay, buffer, &stream.arrivals, lengths);
    lists.expect("accepted limits").dropped.iter().sum()
}

fn sample(name: &str) -> StreamFile {
    StreamFile::from_bytes(&bytes(name, "stream")).expect("a sample")
}

#[test]
fn losses_are_the_reference_s() {
    for_each_drawn(DRAWN, |dice| {
        let file = draw::stream(dice, 1, 8, 1, 12);
        let delay = dice.pick([0, 1, 2, 7, 64, NO_DELAY]);
        let first = dice.pick([0, 0, file.table[1].min(999_990), 999_990]);
        let last = (first + dice.below(30)).min(1_000_000);
        let every = dice.between(1, 4);
        let found = Losses::of(&file.table, delay, &file.arrivals(), &(first..=last), every);
        let all: Vec<u64> = (first..=last).map(|q| lost(&file, delay, q)).collect();
        let enough = all.iter().position(|lost| Some(lost) == all.last());
        let worked = (first..=last).filter(|q| (q - first).is_multiple_of(every) || *q == last);
        let wanted = Losses {
            delay,
            lost: worked.map(|q| (q, all[(q - first) as usize])).collect(),
            enough: first + enough.expect("the last") as u32,
            level: all.last() == Some(&lost(&file, delay, 1_000_000)),
        };
        same(&format!("{file:?} {first}-{last}"), found, Ok(wanted))
    });
}

/// The lines of a picture, read back: at each place of the buffer axis where a line steps, the number of
/// packets that it steps to. The scale of packets is that of two labels beside the frame.
fn read_back(page: &str, first: u32, last: u32) -> Vec<Vec<(u32, u64)>> {
    let label = |line: &str| {
        let y: f64 = line.split('"').nth(3)?.parse().ok()?;
        let text = line.split(['>', '<']).nth(2)?.replace(',', "");
        Some((text.parse::<f64>().ok()?, y - 4.5))
    };
    let ends = page.lines().filter(|line| line.contains("\"end\""));
    let labels: Vec<(f64, f64)> = ends.filter_map(label).collect();
    let ((low, bottom), (high, top)) = (labels[0], labels[labels.len() - 1]);
    let packets = |y: f64| (low + (bottom - y) / (bottom - top) * (high - low)).round() as u64;
    let buffer = |x: f64| {
        let stretches = f64::from(last + 1 - first);
        first + ((x - 90.0) / 785.0 * stretches).round() as u32
    };
    let lines = page.lines().filter(|line| line.contains("H875\""));
    let lines = lines.filter(|line| !line.contains("#666666"));
    let path = |line: &str| line.split('"').nth(1).expect("a path").to_owned();
    let step = |words: &str| -> Option<(f64, f64)> {
        let (x, y) = words.split_once(['V', ' '])?;
        Some((x.parse().ok()?, y.parse().ok()?))
    };
    let read = |line: &str| {
        let steps = path(line);
        let steps = steps.trim_start_matches('M').split('H').filter_map(step);
        steps.map(|(x, y)| (buffer(x), packets(y))).collect()
    };
    lines.map(read).collect()
}

/// The buffer limits at which the reference's loss is another than before, and the first.
fn steps(file: &StreamFile, delay: u32, buffers: impl Iterator<Item = u32>) -> Vec<(u32, u64)> {
    let mut all: Vec<(u32, u64)> = buffers.map(|q| (q, lost(file, delay, q))).collect();
    all.dedup_by_key(|(_, lost)| *lost);
    all
}

#[test]
fn the_picture_in_docs_is_the_one_that_is_drawn() {
    let stage = stage();
    let page = drawn(&stage, &IN_DOCS);
    let picture = fs::read_to_string(repository("docs/bella-sizes.svg")).expect("a picture");
    assert_eq!(page, picture);
    let delays = [5, 6, 7, 8, NO_DELAY];
    let wanted = delays.map(|delay| steps(&sample("bella"), delay, 24..=46));
    assert_eq!(read_back(&page, 24, 46), wanted);
    let made = format!(
        "bin/loss-curve {} > docs/bella-sizes.svg",
        IN_DOCS.join(" ")
    );
    let text = fs::read_to_string(repository("docs/SIZING.md")).expect("a page");
    assert!(text.contains(&made), "{made}");
}

#[test]
fn lines_and_limits_are_told() {
    let stage = stage();
    let page = drawn(&stage, &IN_DOCS);
    check_legend(&page);
    for words in [
        ">bella.stream, lost by slot 42, the last; buffer limit q = 24 to 46 packets<",
        ">d = 5, lost with q = 28 or more: 24<",
        ">d = 6, lost with q = 31 or more: 18<",
        ">d = 7, lost with q = 34 or more: 12<",
        ">d = 8, lost with q = 39 or more: 7<",
        ">no delay limit, lost with q = 46 or more: 0<",
        ">q of the stream: 36<",
        "With delay limit 7: 36 lost with buffer 24, 12 with 46; 34 is the smallest of these that loses as few.",
        "With no delay limit: 36 lost with buffer 24, 0 with 46; 46 is the smallest of these that loses as few.",
    ] {
        assert!(page.contains(words), "{words}");
    }
    assert!(!page.contains("is worked"));
    // Without --delays it is the stream's own; a file and standard input are the same.
    let own = drawn(&stage, &[BELLA, "--buffers=0-45"]);
    assert_eq!(read_back(&own, 0, 45), [steps(&sample("bella"), 7, 0..=45)]);
    assert_eq!(
        drawn(&stage, &["--delays", "7", "--buffers", "0-45", BELLA]),
        own
    );
    let fed = stage.feed(&["-", "--buffers", "0-45"], &bytes("bella", "stream"));
    assert_eq!(fed.out.replace("standard input", "bella.stream"), own);
    // The stream's own buffer limit is told where it is in the picture.
    let below = drawn(&stage, &[BELLA, "--buffers", "0-35"]);
    assert!(!below.contains("q of the stream"), "{below}");
    let alone = drawn(&stage, &[BELLA, "--buffers", "36-36"]);
    assert!(alone.contains(">q of the stream: 36<"), "{alone}");
    assert_eq!(read_back(&alone, 36, 36), [[(36, 12)]]);
    assert_eq!(stage.calls(PROVED), 0);
}

/// 34 loses fewer with a delay limit of 7, and 46 with none; with 5 no limit from 28 on does.
#[test]
fn limits_above_the_last_may_lose_fewer() {
    let delays = ["--delays", "5,7,none"];
    let page = drawn(
        &stage(),
        &[&[BELLA, "--buffers", "24-30"], &delays[..]].concat(),
    );
    check_legend(&page);
    for (delay, told) in [
        (5, ">d = 5, lost with q = 28 or more: "),
        (7, ">d = 7, lost with q = 30: "),
        (NO_DELAY, ">no delay limit, lost with q = 30: "),
    ] {
        let words = format!("{told}{}<", lost(&sample("bella"), delay, 30));
        assert!(page.contains(&words), "{words}");
    }
    assert!(page.contains("d = 7, lost with q = 30: 18<"), "{page}");
}

#[test]
fn streams_with_one_limit_or_none() {
    let stage = stage();
    for (name, delay) in [
        ("six-packet-burst", NO_DELAY),
        ("delay-only", 2),
        ("no-limits", NO_DELAY),
    ] {
        let path = format!("streams/{name}.stream");
        let page = drawn(&stage, &[&path, "--buffers", "0-20"]);
        assert_eq!(
            read_back(&page, 0, 20),
            [steps(&sample(name), delay, 0..=20)]
        );
        assert_eq!(page.contains("q of the stream"), name == "six-packet-burst");
    }
}

/// No text of the legend reaches into another one, or beyond the page.
fn check_legend(page: &str) {
    let texts = page.lines().filter(|line| line.contains("lost with q = "));
    let texts = texts.filter(|line| line.starts_with("<text"));
    let mut ends: Vec<(f64, f64, f64)> = texts
        .map(|line| {
            let number = |place: usize| -> f64 {
                let word = line.split('"').nth(place).expect("a number");
                word.parse().expect("a number")
            };
            let text = line.split(['>', '<']).nth(2).expect("a text");
            let (x, y) = (number(1), number(3));
            (y, x, x + 6.8 * text.chars().count() as f64)
        })
        .collect();
    ends.sort_by(|one, other| one.partial_cmp(other).expect("numbers"));
    assert!(ends.iter().all(|&(_, _, end)| end < 900.0), "{ends:?}");
    let apart = |pair: &[(f64, f64, f64)]| pair[0].0 < pair[1].0 || pair[0].2 < pair[1].1;
    assert!(ends.windows(2).all(apart), "{ends:?}");
}

/// A point of the page has many buffer limits: one in so many is worked, and the last.
#[test]
fn all_buffer_limits_and_the_longest_stream() {
    let stage = stage();
    let counts: Vec<u32> = (0..4_096).map(|slot| slot * 7_919 % 1_000_001).collect();
    let table: Vec<u32> = (0..=64).map(|window| window * 15_000).collect();
    let long = StreamFile::of_arrivals(&table, (1, NO_BUFFER), &counts);
    fs::write(stage.path("long.stream"), long.to_bytes()).expect("a file");
    let delays = "0,1,3,10,30,64,none";
    let words = ["long.stream", "--buffers", "0-1000000", "--delays", delays];
    let page = drawn(&stage, &words);
    assert!(page.contains("q = 0 to 1,000,000 packets"), "{page}");
    assert!(
        page.contains(" One buffer limit in 1274 is worked."),
        "{page}"
    );
    assert_eq!(page.matches(", lost with q = ").count(), 7);
    check_legend(&page);

    let few = sample("six-packet-burst");
    let page = drawn(
        &stage,
        &["streams/six-packet-burst.stream", "--buffers", "0-2000"],
    );
    assert!(page.contains(" One buffer limit in 3 is worked."), "{page}");
    assert!(
        page.contains(">no delay limit, lost with q = 12 or more: 0<"),
        "{page}"
    );
    let worked = (0..=2_000).step_by(3);
    let wanted = steps(&few, NO_DELAY, worked);
    assert_eq!(read_back(&page, 0, 2_000), [wanted]);
}

#[test]
fn wrong_usage() {
    let stage = stage();
    for (words, said) in [
        (
            &[BELLA, "--buffers"][..],
            "the option '--buffers' needs a word after it",
        ),
        (&[BELLA, "--buffers="], "names no buffer limits"),
        (
            &[BELLA, "--buffers", "0-9", "--delays="],
            "names no delay limits",
        ),
        (
            &[BELLA, "--delays", "7"],
            "the option --delays goes with --buffers",
        ),
        (
            &[BELLA, "--buffers", "0-9", "--slots", "1-2"],
            "a picture over --buffers has no --slots and no --rows",
        ),
        (
            &[BELLA, "--buffers", "0-9", "--rows", "x"],
            "a picture over --buffers has no --slots and no --rows",
        ),
        (&["--buffers", "0-9"], "one stream file"),
    ] {
        stage.run(words).check_problem(2, said);
    }
    assert_eq!(stage.calls(COMPILED), 0);
    for buffers in [
        "5",
        "5-4",
        "0-1000001",
        "1-",
        "-3",
        "1-2-3",
        "a-b",
        "0-none",
        "1.0-2",
        "0-99999999999",
    ] {
        let ended = stage.run(&[BELLA, "--buffers", buffers]);
        let said = "are not A-B with A from 0 to B and B at most 1,000,000";
        ended.check_problem(2, said);
    }
    for delays in [
        "65",
        "254",
        "256",
        "7,",
        ",7",
        "7,,8",
        "7 8",
        "7,7",
        "none,255",
        "-1",
        "all",
        "0,1,2,3,4,5,6,7",
        "99999999999",
    ] {
        let words = [BELLA, "--buffers", "0-9", &format!("--delays={delays}")];
        let said = "are not d,d,.. with each 0 to 64 or none, each once and at most 7";
        stage.run(&words).check_problem(2, said);
    }
}

#[test]
fn what_cannot_be_read_is_said() {
    let stage = stage();
    let none = StreamFile::of_arrivals(&[0, 1], (1, 1), &[]);
    fs::write(stage.path("none.stream"), none.to_bytes()).expect("a file");
    for (file, said) in [
        (
            "streams/refused.stream",
            "'streams/refused.stream': refused 6: delay",
        ),
        (
            "none.stream",
            "'none.stream': a stream of no slots has no curve",
        ),
        ("streams", "is a directory"),
        ("no such", "no file 'no such'"),
        ("-", "standard input: refused 12"),
    ] {
        let ended = stage.run(&[file, "--buffers", "0-9"]);
        ended.check_problem(1, said);
    }
}
