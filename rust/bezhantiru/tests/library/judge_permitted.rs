//! Every pair of tiny traces beside a search through the permitted ones: the judge permits exactly
//! those, and none of them loses less than ours.

use std::collections::HashSet;
use std::sync::atomic::{AtomicUsize, Ordering};

use bezhantiru::{NO_BUFFER, NO_DELAY};
use reference::closure::by_recursion;
use reference::permitted::{Pair, Terms, totals};
use reference::regulator::Limits;
use tests_program::cases::{for_each_drawn, said, same, wide};
use tests_program::dice::Dice;

use crate::anyone::{Asked, PERMITTED};
use crate::beside_ours::{check_lowest, ours};

const TRACES: usize = 3_000;

/// A set-up and a trace of up to three slots with few packets.
fn tiny(dice: &mut Dice) -> Asked {
    let mut table = vec![0];
    for _ in 0..dice.between(1, 4) {
        table.push(table[table.len() - 1] + dice.below(3));
    }
    let delay = dice.pick([0, 1, 1, 2, 3, NO_DELAY, NO_DELAY]);
    let some = dice.below(4);
    let none = if delay == NO_DELAY { some } else { NO_BUFFER };
    let slots = dice.pick([0, 1, 2, 3, 3, 3]);
    Asked {
        table,
        limits: (delay, dice.pick([some, some, none])),
        arrivals: (0..slots).map(|_| dice.below(4)).collect(),
        admitted: Vec::new(),
        departed: Vec::new(),
    }
}

/// Every list of so many counts from 0 to 3.
fn counts(slots: usize) -> Vec<Vec<u32>> {
    let traces = reference::tiny::traces(slots as u32);
    let narrow = |trace: Vec<u64>| trace.into_iter().map(|count| count as u32);
    traces.map(|trace| narrow(trace).collect()).collect()
}

/// The totals of every permitted pair, by the search.
fn permitted(asked: &Asked) -> Result<HashSet<[Vec<u64>; 2]>, String> {
    let (delay, buffer) = (asked.limits.0.into(), asked.limits.1.into());
    let terms = Terms {
        f: &by_recursion(&wide(&asked.table), asked.arrivals.len()),
        limits: said(Limits::from_numbers(delay, buffer))?,
        arrived: &totals(&wide(&asked.arrivals)),
    };
    let lists = |pair: Pair| [pair.admitted, pair.departed];
    Ok(terms.pairs().into_iter().map(lists).collect())
}

/// How many pairs were permitted, all of which the search has to have found.
fn check(asked: &Asked) -> Result<usize, String> {
    let permitted = permitted(asked)?;
    let mut found = 0;
    for admitted in counts(asked.arrivals.len()) {
        for departed in counts(asked.arrivals.len()) {
            let rows = Asked {
                admitted: admitted.clone(),
                departed,
                ..asked.clone()
            };
            let judgement = rows.judge();
            let pair = [&rows.admitted, &rows.departed].map(|list| totals(&wide(list)));
            let wanted = permitted.contains(&pair);
            let case = |problem| format!("{rows:?}: {problem}");
            same("permitted", judgement == PERMITTED, wanted).map_err(case)?;
            same("judgement", judgement, rows.by_reference()).map_err(case)?;
            if wanted {
                found += 1;
                check_lowest(&rows)?;
            }
        }
    }
    // The search has those too that let more than 3 go in a slot; no more than 3 arrive.
    let within = |pair: &&[Vec<u64>; 2]| pair[1].windows(2).all(|both| both[1] - both[0] <= 3);
    same("pairs", found, permitted.iter().filter(within).count())?;
    Ok(found)
}

#[test]
fn every_pair_of_tiny_traces() {
    let (pairs, traces) = (AtomicUsize::new(0), AtomicUsize::new(0));
    for_each_drawn(TRACES, |dice| {
        let asked = tiny(dice);
        same("ours", ours(&asked)?.judge(), PERMITTED)?;
        let found = check(&asked).map_err(|problem| format!("{asked:?}: {problem}"))?;
        pairs.fetch_add(found, Ordering::Relaxed);
        traces.fetch_add(usize::from(found > 1), Ordering::Relaxed);
        Ok(())
    });
    let (pairs, traces) = (pairs.into_inner(), traces.into_inner());
    println!("{pairs} permitted pairs; {traces} of {TRACES} traces have several");
    assert!(
        traces > TRACES / 4 && pairs > 5 * TRACES,
        "{pairs} {traces}"
    );
}
