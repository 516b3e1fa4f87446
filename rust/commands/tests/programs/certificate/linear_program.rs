//! `referee/linear_program.py`: a tiny stream's program by hand; rows that hold for exactly the permitted
//! pairs; and totals that a solver finds, where one is there, which are ours.

use std::fs;
use std::path::Path;

use reference::judge::judge;
use reference::layout::{NO_BUFFER, NO_DELAY, StreamFile};
use reference::permitted::totals;
use reference::trace;
use tests_program::cases::{chosen, for_each_drawn, said, same, wide};
use tests_program::draw;
use tests_program::samples::{ACCEPTED, bytes};
use tests_program::stage::{Stage, repository};

const SCRIPT: &str = "referee/linear_program.py";
const STREAM: &str = "drawn.stream";
const PROGRAM: &str = "drawn.lp";
const SOLUTION: &str = "drawn.solution";
const DRAWN: usize = 40;

/// Its 4,096 slots take glpsol a minute.
const LONG: &str = "long";

const TINY: &str = "Maximize
 + x1 + y1
 + x2 + y2
Subject To
 admitted_1: x1 >= 0
 departed_1: y1 >= 0
 rule1_1: x1 <= 5
 rule2_1: y1 - x1 <= 0
 rule3_1_1: y1 <= 2
 rule4_1: x1 <= 9
 admitted_2: x2 - x1 >= 0
 departed_2: y2 - y1 >= 0
 rule1_2: x2 - x1 <= 0
 rule2_2: y2 - x2 <= 0
 rule3_2_1: y2 - y1 <= 2
 rule3_2_2: y2 <= 3
 rule4_2: x2 - y1 <= 9
 rule5_2: x1 - y2 <= 0
End
";

/// Totals with their signs, and what their sum is held to.
struct Row {
    name: String,
    sum: Vec<(i64, String)>,
    at_most: bool,
    bound: i64,
}

/// Admitted and departed totals, from slot 0 on.
struct Pair([Vec<u64>; 2]);

impl Pair {
    fn of(admitted: &[u64], departed: &[u64]) -> Pair {
        Pair([totals(admitted), totals(departed)])
    }

    fn ours(file: &StreamFile) -> Result<Pair, String> {
        let (table, arrivals) = (wide(&file.table), wide(&file.arrivals()));
        let (delay, buffer) = (file.header.delay.into(), file.header.buffer.into());
        let lengths = [arrivals.len(); 3];
        let rows = said(trace::run(&table, delay, buffer, &arrivals, lengths))?;
        Ok(Pair::of(&rows.admitted, &rows.departed))
    }

    /// In the order in which a program names them, without slot 0.
    fn listed(&self) -> Vec<u64> {
        let Pair([admitted, departed]) = self;
        let slots = admitted.iter().zip(departed).skip(1);
        slots.flat_map(|(u, v)| [*u, *v]).collect()
    }

    fn sum(&self, terms: &[(i64, String)]) -> i64 {
        let total = |name: &str| {
            let (letter, slot) = name.split_at(1);
            let list = usize::from(letter == "y");
            assert!(letter == "y" || letter == "x", "{name}");
            self.0[list][slot.parse::<usize>().expect("a slot")] as i64
        };
        terms.iter().map(|(sign, name)| sign * total(name)).sum()
    }

    fn keeps(&self, row: &Row) -> bool {
        let sum = self.sum(&row.sum);
        match row.at_most {
            true => sum <= row.bound,
            false => sum >= row.bound,
        }
    }
}

fn terms(words: &[&str]) -> Vec<(i64, String)> {
    let mut sign = 1;
    let mut terms = Vec::new();
    for word in words {
        match *word {
            "+" => sign = 1,
            "-" => sign = -1,
            total => terms.push((sign, String::from(total))),
        }
    }
    terms
}

/// What is to be made largest, and the rows.
fn read(program: &str) -> (Vec<(i64, String)>, Vec<Row>) {
    let body = program.strip_prefix("Maximize\n").expect("the first line");
    let body = body.strip_suffix("End\n").expect("the last line");
    let (largest, rows) = body.split_once("Subject To\n").expect("two parts");
    let words: Vec<&str> = largest.split_whitespace().collect();
    let rows = rows.lines().map(|line| {
        let (name, row) = line.split_once(':').expect("a name");
        let words: Vec<&str> = row.split_whitespace().collect();
        let (sum, held) = words.split_at(words.len() - 2);
        assert!(["<=", ">="].contains(&held[0]), "{line}");
        Row {
            name: String::from(name.trim_start()),
            sum: terms(sum),
            at_most: held[0] == "<=",
            bound: held[1].parse().expect("a number"),
        }
    });
    (terms(&words), rows.collect())
}

fn stage() -> Stage {
    let stage = Stage::new(SCRIPT);
    stage.lend_python();
    stage
}

/// The program that the script prints for a stream file.
fn printed(stage: &Stage, stream: &[u8]) -> String {
    fs::write(stage.path(STREAM), stream).expect("a file");
    let ended = stage.run(&[STREAM]);
    ended.check_printed(&ended.out);
    ended.out
}

/// The totals that glpsol finds, where it is there.
fn solved(stage: &Stage, program: &str) -> Option<Vec<u64>> {
    let folders = ["/usr/bin", "/bin"];
    if !folders
        .iter()
        .any(|folder| Path::new(folder).join("glpsol").is_file())
    {
        return None;
    }
    stage.write(PROGRAM, program);
    let mut glpsol = stage.system("glpsol");
    let ended = stage.ended(glpsol.args(["--lp", PROGRAM, "-w", SOLUTION]));
    assert_eq!(ended.status, Some(0), "{ended:?}");
    let text = fs::read_to_string(stage.path(SOLUTION)).expect("a solution");
    assert!(text.contains("\nc Status:     OPTIMAL\n"), "{text}");
    let columns = text.lines().filter(|line| line.starts_with("j "));
    let value = |line: &str| line.split(' ').nth(3).and_then(|word| word.parse().ok());
    Some(
        columns
            .map(|line| value(line).unwrap_or_else(|| panic!("{line}")))
            .collect(),
    )
}

/// Our totals keep all rows of the program, and where a solver is there it finds no others. The stream has
/// no delay limit d, or ends in d slots without arrivals.
fn check_ours(stage: &Stage, file: &StreamFile) -> Result<(), String> {
    let ours = Pair::ours(file)?;
    let program = printed(stage, &file.to_bytes());
    let (largest, rows) = read(&program);
    same(
        "to be made largest",
        ours.sum(&largest) as u64,
        ours.listed().iter().sum(),
    )?;
    for row in &rows {
        same(&row.name, ours.keeps(row), true)?;
    }
    match solved(stage, &program) {
        Some(found) => same("the solver's totals", found, ours.listed()),
        None => Ok(()),
    }
}

#[test]
fn a_tiny_stream_by_hand() {
    let file = StreamFile::of_arrivals(&[0, 2, 3], (1, 9), &[5, 0]);
    assert_eq!(printed(&stage(), &file.to_bytes()), TINY);
}

/// All pairs of up to two packets in each of three slots.
#[test]
fn rows_hold_for_exactly_the_permitted_pairs() {
    let (table, arrivals, stage) = ([0, 1, 2], [2, 1, 0], stage());
    let (mut permitted, mut others) = (0, 0);
    for (delay, buffer) in [(0, 2), (1, 2), (1, NO_BUFFER), (2, 1), (NO_DELAY, 2)] {
        let file = StreamFile::of_arrivals(&table, (delay, buffer), &arrivals);
        let (_, rows) = read(&printed(&stage, &file.to_bytes()));
        for number in 0..3_usize.pow(6) {
            let counts = chosen(number, [3; 6]).map(|count| count as u64);
            let (admitted, departed) = counts.split_at(3);
            let verdict = judge(
                &wide(&table),
                delay.into(),
                buffer.into(),
                &wide(&arrivals),
                admitted,
                departed,
            );
            let pair = Pair::of(admitted, departed);
            let broken = rows.iter().find(|row| !pair.keeps(row));
            let wanted = verdict
                .expect("a set-up")
                .map(|broken| broken.rule.number());
            let shown = (delay, buffer, admitted, departed);
            assert_eq!(broken.is_some(), wanted.is_some(), "{shown:?}");
            if let Some((row, rule)) = broken.zip(wanted) {
                let first = format!("rule{rule}_");
                assert!(
                    row.name.starts_with(&first),
                    "{shown:?}: {}, {rule}",
                    row.name
                );
                others += 1;
            } else {
                permitted += 1;
            }
        }
    }
    assert!(permitted > 50 && others > 3_000, "{permitted}, {others}");
}

#[test]
fn drawn_streams() {
    for_each_drawn(DRAWN, |dice| {
        let mut file = draw::stream(dice, 1, 8, 1, 14);
        if file.header.delay != NO_DELAY {
            file.header.slots += file.header.delay;
        }
        check_ours(&stage(), &file)
    });
}

#[test]
fn samples() {
    for sample in ACCEPTED.into_iter().filter(|sample| *sample != LONG) {
        let file = StreamFile::from_bytes(&bytes(sample, "stream")).expect("a stream");
        check_ours(&stage(), &file).unwrap_or_else(|problem| panic!("{sample}: {problem}"));
    }
}

#[test]
fn one_stream_is_named() {
    for files in [&[][..], &["a", "b"]] {
        let ended = stage().run(files);
        assert_eq!((ended.status, &*ended.out), (Some(1), ""), "{ended:?}");
        let usage = "usage: linear_program.py STREAM\n";
        assert!(ended.err.starts_with(usage), "{ended:?}");
    }
}

/// It is shorter than a page, and rests on nothing but Python's own modules.
#[test]
fn it_stands_alone() {
    let script = fs::read_to_string(repository(SCRIPT)).expect("the script");
    assert!(script.lines().count() < 60);
    let imports = script.lines().filter(|line| line.contains("import"));
    assert_eq!(imports.collect::<Vec<_>>(), ["import struct", "import sys"]);
}
