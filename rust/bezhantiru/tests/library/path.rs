//! Document 02, 2.5: regulators in a row beside the reference, beside the whole-trace run and in every
//! order, on tables, limits and traces drawn at random.

use std::thread;

use bezhantiru::{NO_BUFFER, NO_DELAY};
use reference::closure;
use reference::path::{entrance_envelope, least_envelope};
use reference::permitted::{self, Pair, Terms};
use reference::regulator::Limits;
use tests_program::cases::{for_each_drawn, for_each_numbered, said, same, wide};
use tests_program::dice::{Dice, seed};
use tests_program::path::{self, Drawn};

use crate::in_a_row;
use crate::lent::Run;
use crate::whole_trace;

const PATHS: usize = 20_000;
const LONG_PATHS: usize = 12;

fn run(drawn: &Drawn) -> Run {
    let limits = (drawn.delay, drawn.buffer);
    let lengths = drawn.list_lengths();
    in_a_row::run(&drawn.tables, limits, &drawn.arrivals, lengths)
}

/// The problem with the path that it arose in.
fn in_path(drawn: &Drawn, outcome: Result<(), String>) -> Result<(), String> {
    outcome.map_err(|problem| format!("{problem}\n{drawn:?}"))
}

/// The library's lists, which are the reference's.
fn check_lists(drawn: &Drawn) -> Result<[Vec<u32>; 3], String> {
    let found = run(drawn);
    same("lists", &found, &in_a_row::by_reference(drawn)?)?;
    Ok(found.lists)
}

/// The totals of the entrance and, in turn, of each stage.
fn all_totals(drawn: &Drawn, [admitted, _, departed]: &[Vec<u32>; 3]) -> Vec<Vec<u64>> {
    let slots = drawn.arrivals.len();
    let stage =
        |stage: usize| permitted::totals(&wide(&departed[stage * slots..(stage + 1) * slots]));
    let mut all = vec![permitted::totals(&wide(admitted))];
    all.extend((0..drawn.tables.len()).map(stage));
    all
}

/// Every stage sends no more than the one before it and keeps its own envelope.
fn check_stages(drawn: &Drawn, totals: &[Vec<u64>]) -> Result<(), String> {
    let slots = drawn.arrivals.len();
    for (stage, table) in drawn.wide_tables().iter().enumerate() {
        let f = closure::by_recursion(table, slots);
        let (before, sent) = (&totals[stage], &totals[stage + 1]);
        for t in 0..=slots {
            let in_window = |s: usize| sent[t] - sent[s] <= f[t - s];
            if sent[t] > before[t] || !(0..t).all(in_window) {
                return Err(format!("stage {} in slot {t}", stage + 1));
            }
        }
    }
    Ok(())
}

/// The entrance and the last stage are a permitted pair: together they keep the path's d and q, and
/// every stage's envelope.
fn check_permitted(drawn: &Drawn, totals: &[Vec<u64>]) -> Result<(), String> {
    let terms = Terms {
        f: &least_envelope(&drawn.wide_tables(), drawn.arrivals.len()),
        limits: said(Limits::from_numbers(
            drawn.delay.into(),
            drawn.buffer.into(),
        ))?,
        arrived: &permitted::totals(&wide(&drawn.arrivals)),
    };
    let pair = Pair {
        admitted: totals[0].clone(),
        departed: totals[totals.len() - 1].clone(),
    };
    same("permitted", terms.permit(&pair), true)
}

/// Every order of some tables.
fn orders(tables: &[Vec<u32>]) -> Vec<Vec<Vec<u32>>> {
    if tables.is_empty() {
        return vec![Vec::new()];
    }
    let with_last = |last: usize| {
        let mut others = tables.to_vec();
        let last = others.remove(last);
        let end = move |mut order: Vec<Vec<u32>>| {
            order.push(last.clone());
            order
        };
        orders(&others).into_iter().map(end)
    };
    (0..tables.len()).flat_map(with_last).collect()
}

/// What does not depend on the order: the entrance and the last stage.
fn ends([admitted, dropped, departed]: &[Vec<u32>; 3]) -> [&[u32]; 3] {
    let last = &departed[departed.len() - admitted.len()..];
    [admitted, dropped, last]
}

fn check_orders(drawn: &Drawn, lists: &[Vec<u32>; 3]) -> Result<(), String> {
    for tables in orders(&drawn.tables) {
        let other = Drawn {
            tables,
            ..drawn.clone()
        };
        let found = run(&other);
        in_path(&other, same("outcome", found.outcome, Ok(())))?;
        in_path(&other, same("ends", ends(&found.lists), ends(lists)))?;
    }
    Ok(())
}

/// Lists beyond the number of stages: tables that would be refused, or lower the envelope.
fn any_list(dice: &mut Dice) -> Vec<u32> {
    let length = dice.pick([0, 1, 2, 3, 65, 66, 5_000]);
    let most = dice.pick([1, 2, 1_000, u32::MAX]);
    (0..length).map(|_| dice.below(most)).collect()
}

fn check_beyond(drawn: &Drawn, lists: &[Vec<u32>; 3], dice: &mut Dice) -> Result<(), String> {
    let mut lent = drawn.tables.clone();
    lent.resize_with(4, || any_list(dice));
    let stages = drawn.tables.len() as u32;
    let found = in_a_row::run_first(
        stages,
        [0, 1, 2, 3].map(|stage| &lent[stage][..]),
        (drawn.delay, drawn.buffer),
        &drawn.arrivals,
        drawn.list_lengths(),
    );
    let same = found.outcome.is_ok() && found.lists == *lists;
    let beyond = &lent[drawn.tables.len()..];
    if same {
        Ok(())
    } else {
        Err(format!("{found:?} with {beyond:?} beyond the stages"))
    }
}

fn check_path(drawn: &Drawn, dice: &mut Dice) -> Result<(), String> {
    let lists = check_lists(drawn)?;
    let totals = all_totals(drawn, &lists);
    check_stages(drawn, &totals)?;
    check_permitted(drawn, &totals)?;
    check_orders(drawn, &lists)?;
    check_beyond(drawn, &lists, dice)
}

#[test]
fn paths() {
    for_each_drawn(PATHS, |dice| {
        let drawn = path::any(dice);
        in_path(&drawn, check_path(&drawn, dice))
    });
}

#[test]
fn long_paths() {
    for_each_drawn(LONG_PATHS, |dice| {
        let drawn = path::path(dice, 4_096);
        in_path(&drawn, check_path(&drawn, dice))
    });
}

/// The totals of the longest trace with the most arrivals, which 32 bits just hold.
#[test]
fn the_greatest_totals() {
    let limits = [(0, 0), (64, 1_000_000), (NO_DELAY, 1), (63, NO_BUFFER)];
    let mut full = vec![1_000_000; 65];
    full[0] = 0;
    let tables = [vec![0, 1_000_000], vec![0, 999_999, 1_000_000], full];
    for_each_numbered(limits.len() * 4, |number, dice| {
        let (delay, buffer) = limits[number % 4];
        let stages = number / 4 + 1;
        let table = |stage: usize| tables[(stage + number) % 3].clone();
        let drawn = Drawn {
            tables: (0..stages).map(table).collect(),
            delay,
            buffer,
            arrivals: vec![1_000_000; 4_096],
        };
        in_path(&drawn, check_path(&drawn, dice))
    });
}

/// The stack that the header speaks of is enough for the most stages, slots and windows; too small a
/// one would end the whole test.
#[test]
fn the_header_s_stack() {
    let drawn = Drawn {
        tables: vec![(0..65).collect(); 4],
        delay: 64,
        buffer: 1_000,
        arrivals: vec![3; 4_096],
    };
    let small = thread::Builder::new().stack_size(1 << 17);
    let found = small.spawn(move || run(&drawn).outcome);
    let found = found.expect("a thread").join().expect("an answer");
    assert_eq!(found, Ok(()));
}

#[test]
fn one_stage_is_a_whole_trace_run() {
    for_each_drawn(PATHS, |dice| {
        let mut drawn = path::any(dice);
        drawn.tables.truncate(1);
        let limits = (drawn.delay, drawn.buffer);
        let lengths = [drawn.arrivals.len(); 3];
        let wanted = whole_trace::run(&drawn.tables[0], limits, &drawn.arrivals, lengths);
        in_path(&drawn, same("one stage", run(&drawn), wanted))
    });
}

/// Whether packets are dropped, whether they wait at the first stage and at the last, and whether the
/// least of the closed envelopes had to be closed again.
fn kinds(drawn: &Drawn) -> [bool; 4] {
    let lists = drawn.lists().expect("an accepted path");
    let slots = lists.admitted.len();
    let stage = |stage: usize| &lists.departed[stage * slots..(stage + 1) * slots];
    let last = drawn.tables.len() - 1;
    let tables = drawn.wide_tables();
    [
        lists.dropped.iter().any(|&count| count > 0),
        stage(0) != lists.admitted,
        last > 0 && stage(last) != stage(last - 1),
        least_envelope(&tables, slots) != entrance_envelope(&tables, slots),
    ]
}

#[test]
fn every_kind_of_path_is_drawn() {
    let seed = seed().unwrap_or_else(|problem| panic!("{problem}"));
    let mut by_stages = [0; 5];
    let mut by_kind = [[0; 4]; 5];
    for number in 0..PATHS as u64 {
        let drawn = path::any(&mut Dice::new(seed, number));
        let stages = drawn.tables.len();
        by_stages[stages] += 1;
        for (count, is) in by_kind[stages].iter_mut().zip(kinds(&drawn)) {
            *count += usize::from(is);
        }
    }
    println!("SEED={seed} {by_stages:?} {by_kind:?}");
    for stages in 1..=4 {
        let [lossy, waits_first, waits_last, closed] = by_kind[stages];
        assert!(lossy.min(waits_first) >= 1_000, "SEED={seed} {by_kind:?}");
        assert!(
            stages == 1 || waits_last.min(closed) >= 300,
            "SEED={seed} {by_kind:?}"
        );
    }
}
