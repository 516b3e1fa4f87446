//! The numbers of docs/SIZING.md that no command prints: its table of what Bella's stream loses and of what
//! form and bench read, by the buffer limit, and those in its sentences.

use std::fs;

use reference::closure::by_recursion;
use reference::fill::{Peaks, records};
use reference::layout::NO_BUFFER;
use reference::regulator::{Count, Limits, Row, Totals};
use reference::stream::Stream;
use reference::{stream, trace};
use tests_program::samples::bytes;
use tests_program::stage::repository;

const HEADING: &str =
    "| q | Lost by slot 1 | by slot 13 | by slot 25 | by slot 42 | Form | Bench |";
const SLOTS: [usize; 4] = [1, 13, 25, 42];
const BUFFERS: [&str; 7] = ["33", "34", "35", "36", "37", "38", "none"];

fn bella() -> Stream {
    stream::read(&bytes("bella", "stream")).expect("a sample")
}

/// Her slots with a buffer limit, by the reference.
fn slots(word: &str) -> Vec<Row> {
    let mut bella = bella();
    bella.buffer = word.parse().unwrap_or(NO_BUFFER.into());
    trace::rows(&bella).expect("an accepted stream")
}

/// The row of a buffer limit.
fn row(word: &str) -> String {
    let rows = slots(word);
    let lost = SLOTS.map(|slot| rows[..slot].iter().map(|row| row.dropped).sum::<u64>());
    let Peaks { form, bench } = Peaks::over(&records(&rows));
    let numbers = [&lost[..], &[form, bench]].concat();
    let numbers: Vec<String> = numbers.iter().map(u64::to_string).collect();
    format!("| {word} | {} |", numbers.join(" | "))
}

#[test]
fn rows_are_the_reference_s() {
    let page = fs::read_to_string(repository("docs/SIZING.md")).expect("a page");
    let (_, table) = page.split_once(HEADING).expect("the table");
    let rows = table.lines().skip(2).take_while(|line| !line.is_empty());
    assert_eq!(rows.collect::<Vec<_>>(), BUFFERS.map(row));
}

/// f(1) more, before the departures, admits by every slot at least what a limit after them would.
#[test]
fn from_the_form_to_q() {
    let bella = bella();
    let f = by_recursion(&bella.table, bella.arrivals.len() + bella.delay as usize);
    let admitted = |buffer, count| {
        let limits = Limits::from_numbers(bella.delay, buffer).expect("limits");
        Totals::over(&f, limits.counted(count), &bella.arrivals).admitted
    };
    for form in 0..=45 {
        let after = admitted(form, Count::AfterDepartures);
        let before = admitted(form + f[1], Count::BeforeDepartures);
        let mut slots = after.iter().zip(&before);
        assert!(slots.all(|(after, before)| after <= before), "{form}");
    }
}

#[test]
fn numbers_in_sentences() {
    let arrived = [1, 13].map(|slots| bella().arrivals[..slots].iter().sum::<u64>());
    assert_eq!(arrived, [38, 97]);
    let f = by_recursion(&bella().table, 32);
    assert_eq!([1, 20, 24, 32].map(|window| f[window]), [6, 88, 110, 144]);
    for word in ["34", "35", "36"] {
        let record = records(&slots(word))[24];
        assert_eq!((record.bench_fill(), record.departed), (34, 4), "{word}");
    }
    for word in BUFFERS {
        let lossy = (1..).zip(slots(word)).filter(|(_, row)| row.dropped > 0);
        let lossy: Vec<usize> = lossy.map(|(slot, _)| slot).collect();
        let other = lossy.iter().find(|slot| ![1, 13, 25].contains(*slot));
        assert_eq!(other, None, "{word}");
    }
}
