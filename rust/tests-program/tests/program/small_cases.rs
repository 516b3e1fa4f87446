//! Document 01, "The lowest loss curve", on what the program prints: every trace of up to four
//! slots with 0 to 3 arrivals in each, beside a search through all permitted pairs.

use std::sync::atomic::{AtomicUsize, Ordering};

use reference::closure::by_recursion;
use reference::layout::{NO_BUFFER, NO_DELAY, StreamFile};
use reference::permitted::{Pair, Terms, premise, totals};
use reference::regulator::Limits;
use reference::text;
use reference::tiny::traces;
use tests_program::cases::{said, wide};
use tests_program::compare::{check_each, compare_with};
use tests_program::program::Program;

type SetUp = (&'static [u32], u32, u32);

/// Tables, delay limits and buffer limits.
const SET_UPS: [SetUp; 14] = [
    (&[0, 2, 3], 1, 3),
    (&[0, 2, 3], NO_DELAY, 1),
    (&[0, 2, 3], 2, NO_BUFFER),
    (&[0, 2, 3], NO_DELAY, NO_BUFFER),
    (&[0, 1], 0, 3),
    (&[0, 1], 1, 1),
    (&[0, 1], 2, 3),
    (&[0, 2, 5], NO_DELAY, 3),
    (&[0, 2, 5], 1, NO_BUFFER),
    (&[0, 0, 5], 2, 3),
    (&[0, 0, 1, 3], 1, 0),
    (&[0, 1, 1, 4], 2, 1),
    (&[0, 0], NO_DELAY, 3),
    (&[0, 3, 3, 3], 0, NO_BUFFER),
];

fn file((table, delay, buffer): SetUp, arrivals: &[u64]) -> Vec<u8> {
    let arrivals: Vec<u32> = arrivals.iter().map(|&count| count as u32).collect();
    StreamFile::of_arrivals(table, (delay, buffer), &arrivals).to_bytes()
}

/// One column of the slots' lines, the slot being column 0.
fn column(printed: &str, place: usize) -> Result<Vec<u64>, String> {
    let lines: Vec<&str> = printed.lines().collect();
    let [_, slots @ .., _] = &lines[..] else {
        return Err(format!("no table: {printed}"));
    };
    let field = |line: &&str| {
        line.split(' ')
            .nth(place)
            .and_then(|word| word.parse().ok())
    };
    let column: Option<Vec<u64>> = slots.iter().map(field).collect();
    column.ok_or_else(|| format!("no column {place}: {printed}"))
}

/// Checks one printed table, and says whether the premise held.
fn check(set_up: SetUp, arrivals: &[u64], printed: &str) -> Result<bool, String> {
    let (table, delay, buffer) = set_up;
    let limits = said(Limits::from_numbers(delay.into(), buffer.into()))?;
    let terms = Terms {
        f: &by_recursion(&wide(table), arrivals.len()),
        limits,
        arrived: &totals(arrivals),
    };
    let pair = Pair {
        admitted: totals(&column(printed, 2)?),
        departed: totals(&column(printed, 4)?),
    };
    if !terms.permit(&pair) {
        return Err(format!("not permitted: {pair:?}"));
    }
    if !premise(limits, arrivals) {
        return Ok(false);
    }
    let greatest = terms.greatest();
    if greatest == pair {
        Ok(true)
    } else {
        Err(format!("{pair:?} is not the greatest, {greatest:?}"))
    }
}

#[test]
fn no_permitted_pair_loses_less_than_the_program() {
    let program = Program::find().unwrap_or_else(|problem| panic!("{problem}"));
    let traces: Vec<Vec<u64>> = (0..=4).flat_map(traces).collect();
    let held_by_premise = AtomicUsize::new(0);
    check_each(SET_UPS.len() * traces.len(), |number| {
        let set_up = SET_UPS[number / traces.len()];
        let arrivals = &traces[number % traces.len()];
        let file = file(set_up, arrivals);
        let printed = program.print(&file)?;
        let checked = check(set_up, arrivals, &printed);
        let holds = checked.map_err(|problem| format!("{set_up:?} {arrivals:?}: {problem}"))?;
        compare_with(&text::printed(&file), Ok(printed), &file)?;
        held_by_premise.fetch_add(usize::from(holds), Ordering::Relaxed);
        Ok(())
    });
    assert!(held_by_premise.into_inner() > 2_000);
}
