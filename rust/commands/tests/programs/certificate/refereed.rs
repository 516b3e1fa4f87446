//! The same verdicts from the proved checker and from `referee/referee.py`, on drawn files and on the
//! samples, and in the words that docs/FORMAT.md lists.

use std::collections::BTreeMap;
use std::fs::{self, File};

use commands::certificate::{Stream, Table, verdict};
use tests_program::dice::{Dice, seed};
use tests_program::samples::SAMPLES;
use tests_program::stage::{Stage, repository};

use super::cases::{Case, drawn};

const CASES: usize = 6_000;
const REFEREE: &str = "referee/referee.py";
/// Runs the script on many cases at once.
const DRIVER: &str = "rust/commands/tests/programs/certificate/referee_cases.py";

/// The verdict of the command, or the file and what is wrong with it.
fn checked([stream, table, certificate]: &Case) -> Result<String, (&str, String)> {
    let stream = Stream::read(stream).map_err(|refusal| ("stream", refusal.to_string()))?;
    let table = Table::read(table, &stream).map_err(|wrong| ("table", wrong))?;
    verdict(certificate, &stream, &table).map_err(|wrong| ("certificate", wrong))
}

fn stage() -> Stage {
    let stage = Stage::new(REFEREE);
    stage.lend_python();
    stage
}

/// What the script says of each case, with its status.
fn refereed(cases: &[Case]) -> Vec<String> {
    let stage = stage();
    let hex = |bytes: &Vec<u8>| -> String { bytes.iter().map(|b| format!("{b:02x}")).collect() };
    let lines = cases
        .iter()
        .map(|case| case.each_ref().map(hex).join(" ") + "\n");
    stage.write("cases", &lines.collect::<String>());
    let mut driver = stage.system("python3");
    let files = [DRIVER, REFEREE].map(repository);
    let cases = File::open(stage.path("cases")).expect("the cases");
    let ended = stage.ended(driver.args(files).stdin(cases));
    ended.check_printed(&ended.out);
    ended.out.lines().map(String::from).collect()
}

/// A line without its numbers; refusals of streams are one kind.
fn kind(said: &str) -> String {
    if said.starts_with("refused ") {
        return String::from("refused");
    }
    let mut kind = String::new();
    for sign in said.chars() {
        match sign {
            '0'..='9' if kind.ends_with('#') => (),
            '0'..='9' => kind.push('#'),
            _ => kind.push(sign),
        }
    }
    kind
}

/// The kinds that docs/FORMAT.md lists.
fn listed() -> Vec<String> {
    let text = fs::read_to_string(repository("docs/FORMAT.md")).expect("a text");
    let (_, from) = text.split_once("\n| Said | Of what |\n").expect("the list");
    let (list, _) = from.split_once("\n\n").expect("what follows it");
    let said = list.lines().filter_map(|line| line.strip_prefix("| `"));
    let said = said.filter_map(|line| Some(line.split_once('`')?.0));
    said.map(kind).collect()
}

#[test]
fn drawn_cases() {
    let seed = seed().unwrap_or_else(|problem| panic!("{problem}"));
    let draw = |number: usize| {
        let case = drawn(number, &mut Dice::new(seed, number as u64));
        case.unwrap_or_else(|problem| panic!("SEED={seed}, number {number}: {problem}"))
    };
    let cases: Vec<Case> = (0..CASES).map(draw).collect();
    let refereed = refereed(&cases);
    assert_eq!(refereed.len(), CASES);
    let mut tally: BTreeMap<String, usize> = BTreeMap::new();
    for (number, (case, refereed)) in cases.iter().zip(refereed).enumerate() {
        let (wanted, said) = match checked(case) {
            Ok(verdict) => (format!("0 {}", verdict.trim_end()), verdict),
            Err((file, wrong)) => (format!("1 referee: the file '{file}': {wrong}"), wrong),
        };
        let shown = case.each_ref().map(|file| String::from_utf8_lossy(file));
        assert_eq!(refereed, wanted, "SEED={seed}, number {number}: {shown:?}");
        *tally.entry(kind(said.trim_end())).or_default() += 1;
    }
    println!("SEED={seed} {tally:#?}");
    let whole = tally.remove("certified: no regulator could have lost fewer by any of # slots");
    let some = tally.remove("certified in # of # slots");
    assert!(
        whole > Some(CASES / 8) && some > Some(CASES / 32),
        "{whole:?}, {some:?}"
    );
    let mut listed = listed();
    listed.sort();
    assert_eq!(tally.into_keys().collect::<Vec<_>>(), listed);
}

#[test]
fn samples() {
    let stage = stage();
    for sample in SAMPLES {
        let path = |ending: &str| repository(&format!("streams/{sample}.{ending}"));
        let other = repository("streams/bella.certificate");
        let certificate = Some(path("certificate")).filter(|path| path.is_file());
        let files = [path("stream"), path("table"), certificate.unwrap_or(other)];
        let files = files.each_ref().map(|path| path.to_str().expect("a path"));
        let mut checker = stage.system(env!("CARGO_BIN_EXE_certificate"));
        let ours = stage.ended(checker.arg("--check").args(files));
        let theirs = stage.run(&files);
        let ours_said = ours.err.replacen("certificate: ", "referee: ", 1);
        assert_eq!(
            (theirs.status, theirs.out, theirs.err),
            (ours.status, ours.out, ours_said)
        );
    }
}

#[test]
fn what_the_referee_cannot_read() {
    let stage = stage();
    for file in ["no such", "tools"] {
        let ended = stage.run(&[file, file, file]);
        assert_eq!((ended.status, &*ended.out), (Some(1), ""), "{ended:?}");
        let begin = format!("referee: the file '{file}': ");
        assert!(ended.err.starts_with(&begin), "{ended:?}");
        assert_eq!(ended.err.lines().count(), 1, "{ended:?}");
    }
    for files in [&[][..], &["a", "b"], &["a", "b", "c", "d"]] {
        let ended = stage.run(files);
        assert_eq!((ended.status, &*ended.out), (Some(2), ""), "{ended:?}");
        assert!(
            ended
                .err
                .starts_with("usage: referee.py STREAM TABLE CERTIFICATE\n")
        );
    }
}

/// It is to be read on one page, and rests on nothing but Python's own modules.
#[test]
fn the_referee_stands_alone() {
    let script = fs::read_to_string(repository(REFEREE)).expect("the script");
    assert!(script.lines().count() <= 120);
    let imports = script.lines().filter(|line| line.contains("import"));
    let known = [
        "import re",
        "import sys",
        "from itertools import accumulate",
        "from math import inf",
    ];
    assert_eq!(imports.collect::<Vec<_>>(), known);
}
