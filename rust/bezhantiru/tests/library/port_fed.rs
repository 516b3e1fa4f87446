//! Document 02, 2.11: a port fed with the departures of regulators. It accepts them, and its capacity
//! can be sized by their envelopes alone: document 000's theorems 7.1 and 7.4.

use bezhantiru::{NO_BUFFER, NO_DELAY};
use reference::closure::by_recursion;
use tests_program::cases::{for_each_drawn, said, same, wide};
use tests_program::dice::Dice;
use tests_program::draw;
use tests_program::port::Drawn;

use crate::shared::{accepted, run};
use crate::whole_trace;

const PORTS: usize = 5_000;

/// A regulator's table, d and q, and its stream's deadline at the port.
#[derive(Clone, Debug)]
struct Fed {
    table: Vec<u32>,
    limits: (u32, u32),
    deadline: u32,
}

fn any(dice: &mut Dice) -> Fed {
    let drawn = draw::any(dice);
    let near = dice.below(6);
    Fed {
        table: drawn.table,
        limits: (drawn.header.delay, drawn.header.buffer),
        deadline: dice.pick([0, near, near, 64]),
    }
}

/// One to eight regulators, and slots.
fn regulators(dice: &mut Dice) -> (Vec<Fed>, usize) {
    let streams = dice.between(1, 8);
    let slots = dice.pick([0, 1, 5, 20, 20, 40, 40, 256]);
    ((0..streams).map(|_| any(dice)).collect(), slots)
}

/// The departures of each regulator on a trace of its own, one after another.
fn departed(
    regulators: &[Fed],
    slots: usize,
    mut trace: impl FnMut(&Fed) -> Vec<u32>,
) -> Result<Vec<u32>, String> {
    let mut all = Vec::new();
    for fed in regulators {
        let run = whole_trace::run(&fed.table, fed.limits, &trace(fed), [slots; 3]);
        said(run.outcome)?;
        let [_, _, departed] = run.lists;
        all.extend(departed);
    }
    Ok(all)
}

/// The least capacity that is enough whatever the traces: for every window k of at least 1 the sum of
/// f at k - D over the streams, 0 where k is at most D, is at most k times the capacity.
fn enough(regulators: &[Fed], slots: usize) -> u32 {
    let bound = |fed: &Fed| by_recursion(&wide(&fed.table), slots);
    let envelopes: Vec<Vec<u64>> = regulators.iter().map(bound).collect();
    let due = |window: usize| -> u64 {
        let of = |(fed, f): (&Fed, &Vec<u64>)| f[window.saturating_sub(fed.deadline as usize)];
        regulators.iter().zip(&envelopes).map(of).sum()
    };
    let needed = (1..=slots).map(|window| due(window).div_ceil(window as u64));
    needed.max().unwrap_or(0) as u32
}

fn port(regulators: &[Fed], slots: usize, capacity: u32, input: Vec<u32>) -> Drawn {
    Drawn {
        deadlines: regulators.iter().map(|fed| fed.deadline).collect(),
        slots: slots as u32,
        capacity,
        input,
    }
}

/// The late counts, when the run is accepted and as the reference has it.
fn late(drawn: &Drawn) -> Result<Vec<u32>, String> {
    let found = run(drawn, drawn.list_lengths());
    let wanted = accepted(said(drawn.lists())?);
    same("lists", &found, &wanted).map_err(|problem| format!("{problem}\n{drawn:?}"))?;
    let [_, late] = found.lists;
    Ok(late)
}

#[test]
fn departures_are_accepted_and_in_time() {
    for_each_drawn(PORTS, |dice| {
        let (regulators, slots) = regulators(dice);
        let input = departed(&regulators, slots, |fed| {
            let rate = fed.table[fed.table.len() - 1];
            (0..slots)
                .map(|_| dice.below(rate + 2).min(1_000_000))
                .collect()
        })?;
        let capacity = enough(&regulators, slots);
        let sized = port(&regulators, slots, capacity, input.clone());
        same("late", late(&sized)?, vec![0; regulators.len()])
            .map_err(|problem| format!("{problem}\n{sized:?}"))?;
        // Any other capacity is accepted too.
        late(&port(&regulators, slots, capacity / 2, input)).map(|_| ())
    });
}

/// Regulators that let go as much as they may from slot 1 on need all of that capacity.
#[test]
fn one_packet_a_slot_less_is_not_enough() {
    for_each_drawn(PORTS, |dice| {
        let (mut regulators, slots) = regulators(dice);
        for fed in &mut regulators {
            fed.limits = dice.pick([(64, NO_BUFFER), (NO_DELAY, 1_000_000)]);
        }
        let input = departed(&regulators, slots, |_| vec![1_000_000; slots])?;
        let capacity = enough(&regulators, slots);
        let none = late(&port(&regulators, slots, capacity, input.clone()))?;
        same("late", none.iter().sum::<u32>(), 0)?;
        if capacity > 0 {
            let less = late(&port(&regulators, slots, capacity - 1, input))?;
            same("late", less.iter().any(|&count| count > 0), true)
                .map_err(|problem| format!("{problem}\n{regulators:?} {slots} {capacity}"))?;
        }
        Ok(())
    });
}

/// Table 0,2,3 twice, with the deadlines 0 and 2: f is 0,2,3,5,6, so that in windows of 1 to 4 slots 2,
/// 3, 5 + 2 and 6 + 3 packets may be due. Two a slot are too few in the last two of them.
#[test]
fn a_small_row() {
    let fed = |deadline| Fed {
        table: vec![0, 2, 3],
        limits: (NO_DELAY, 9),
        deadline,
    };
    let regulators = [fed(0), fed(2)];
    assert_eq!(enough(&regulators, 4), 3);
    let input = departed(&regulators, 4, |_| vec![9; 4]).expect("accepted runs");
    assert_eq!(input, [2, 1, 2, 1, 2, 1, 2, 1]);
    assert_eq!(
        late(&port(&regulators, 4, 3, input.clone())),
        Ok(vec![0, 0])
    );
    assert_eq!(late(&port(&regulators, 4, 2, input)), Ok(vec![0, 2]));
}
