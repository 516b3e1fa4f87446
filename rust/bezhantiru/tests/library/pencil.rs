//! Document 02, 2.14: the pencil version, the whole-trace run and a fresh live regulator agree on every
//! short trace that is listed, and on any other of at most five slots.

use std::sync::atomic::{AtomicUsize, Ordering};

use bezhantiru::pencil::short_traces;
use bezhantiru::{NO_BUFFER, NO_DELAY, Regulator};
use tests_program::cases::{for_each_drawn, said, same, wide};
use tests_program::dice::Dice;
use tests_program::draw;

use crate::by_pencil;
use crate::lent::Run;
use crate::whole_trace;

const SET_UPS: usize = 300;
const DRAWN: usize = 60_000;

type SetUp = (Vec<u32>, (u32, u32));

/// Every listed trace of 0 to 5 slots.
fn listed() -> Vec<Vec<u32>> {
    (0..=5).flat_map(listed_of).collect()
}

fn listed_of(slots: u32) -> Vec<Vec<u32>> {
    let (width, traces) = (slots as usize, 4_usize.pow(slots));
    let mut counts = vec![0; width * traces];
    short_traces(slots, &mut counts).expect("an accepted list");
    let trace = |number: usize| counts[number * width..(number + 1) * width].to_vec();
    (0..traces).map(trace).collect()
}

/// The lists of the records that a fresh live regulator answers.
fn live((table, (delay, buffer)): &SetUp, arrivals: &[u32]) -> Result<Run, String> {
    let mut live = said(Regulator::set_up(table, *delay, *buffer))?;
    let mut lists = [const { Vec::new() }; 3];
    for &count in arrivals {
        let record = said(live.slot(count.into()))?;
        let counts = [record.admitted, record.dropped, record.departed];
        for (list, count) in lists.iter_mut().zip(counts) {
            list.push(said(u32::try_from(count))?);
        }
    }
    Ok(Run {
        outcome: Ok(()),
        lists,
    })
}

/// By the reference's pencil.
fn reference((table, (delay, buffer)): &SetUp, arrivals: &[u32]) -> Result<Run, String> {
    let (table, arrivals) = (wide(table), wide(arrivals));
    let (delay, buffer, lengths) = ((*delay).into(), (*buffer).into(), [arrivals.len(); 3]);
    let wanted = said(reference::pencil::run(
        &table, delay, buffer, &arrivals, lengths,
    ))?;
    let narrow = |list: Vec<u64>| list.into_iter().map(|count| count as u32).collect();
    Ok(Run {
        outcome: Ok(()),
        lists: [wanted.admitted, wanted.dropped, wanted.departed].map(narrow),
    })
}

/// All four agree. Whether anything was lost.
fn check(set_up: &SetUp, arrivals: &[u32]) -> Result<bool, String> {
    let (table, limits) = set_up;
    let lengths = [arrivals.len(); 3];
    let found = by_pencil::run(table, *limits, arrivals, lengths);
    let all = || {
        same(
            "pencil and reference",
            &found,
            &reference(set_up, arrivals)?,
        )?;
        let run = whole_trace::run(table, *limits, arrivals, lengths);
        same("pencil and run", &found, &run)?;
        same(
            "pencil and live regulator",
            &found,
            &live(set_up, arrivals)?,
        )
    };
    all().map_err(|problem| format!("{set_up:?}, {arrivals:?}: {problem}"))?;
    Ok(found.lists[1].iter().any(|&dropped| dropped > 0))
}

/// Tables and limits between which and 0 to 3 arrivals there is something to decide, and any others.
fn set_up(dice: &mut Dice) -> SetUp {
    if dice.below(4) == 0 {
        let drawn = draw::any(dice);
        return (drawn.table, (drawn.header.delay, drawn.header.buffer));
    }
    let mut table = vec![0];
    for _ in 0..dice.between(1, 6) {
        table.push(table[table.len() - 1] + dice.below(3));
    }
    let (delay, some) = (
        dice.pick([0, 1, 1, 2, 2, 3, 4, 64, NO_DELAY]),
        dice.below(8),
    );
    let none = if delay == NO_DELAY { some } else { NO_BUFFER };
    (table, (delay, dice.pick([some, some, none])))
}

#[test]
fn every_listed_trace() {
    let traces = listed();
    assert_eq!(traces.len(), 1_365);
    let lossy = AtomicUsize::new(0);
    for_each_drawn(SET_UPS, |dice| {
        let set_up = set_up(dice);
        for arrivals in &traces {
            let lost = check(&set_up, arrivals)?;
            lossy.fetch_add(usize::from(lost), Ordering::Relaxed);
        }
        Ok(())
    });
    let (lossy, all) = (lossy.into_inner(), SET_UPS * traces.len());
    println!("{lossy} of {all} lose packets");
    assert!(lossy > all / 4, "{lossy} of {all}");
}

#[test]
fn any_trace_of_at_most_five_slots() {
    for_each_drawn(DRAWN, |dice| {
        let drawn = draw::stream(dice, 1, 64, 0, 5);
        let arrivals = drawn.arrivals();
        let limits = (drawn.header.delay, drawn.header.buffer);
        check(&(drawn.table, limits), &arrivals).map(|_| ())
    });
}

/// The largest counts, tables and limits.
#[test]
fn the_largest_numbers() {
    let tables = [vec![0, 1_000_000], vec![0; 65], vec![1_000_000; 65]];
    for mut table in tables {
        table[0] = 0;
        for limits in [
            (0, 1_000_000),
            (64, 1_000_000),
            (64, NO_BUFFER),
            (NO_DELAY, 1_000_000),
            (NO_DELAY, 0),
        ] {
            for slots in 0..=5 {
                let done = check(&(table.clone(), limits), &vec![1_000_000; slots]);
                done.unwrap_or_else(|problem| panic!("{problem}"));
            }
        }
    }
}
