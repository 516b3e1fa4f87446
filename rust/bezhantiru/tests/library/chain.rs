//! Document 02, 2.8: the chain of a slot, found as the reference finds it, on tables, limits and
//! traces drawn at random. Its amounts add up to what the whole-trace run admits.

use std::thread;

use bezhantiru::boundary::chain::{ChainVerdict, FoundChain};
use bezhantiru::{NO_BUFFER, NO_DELAY};
use reference::permitted::totals;
use tests_program::cases::{for_each_drawn, same, wide};
use tests_program::dice::{Dice, seed};
use tests_program::draw;

use crate::chains::{Asked, Lists};
use crate::whole_trace;

const STREAMS: usize = 30_000;
const LONG_STREAMS: usize = 12;
/// Of longer traces so many slots are asked for, of shorter ones all.
const SLOTS_ASKED: usize = 12;

/// X from slot 0 on, by the library's whole-trace run.
fn admitted_by(asked: &Asked) -> Vec<u64> {
    let slots = asked.arrivals.len();
    let run = whole_trace::run(&asked.table, asked.limits, &asked.arrivals, [slots; 3]);
    assert_eq!(run.outcome, Ok(()), "{asked:?}");
    totals(&wide(&run.lists[0]))
}

/// Finder and checker at one slot of an accepted trace, which has these totals admitted.
fn check_found(asked: &Asked, admitted: &[u64]) -> Result<(FoundChain, Lists), String> {
    let lengths = [asked.length(); 3];
    let (answer, lists) = asked.find(lengths);
    let wanted = asked.found_by_reference(lengths);
    same("chain", &(answer, lists.clone()), &wanted)?;
    let sound = ChainVerdict {
        number: 0,
        sound: 1,
    };
    same("verdict", asked.check(&lists, answer.places), sound)?;
    let amounts = &lists[2][..answer.places as usize];
    let sum: u64 = amounts.iter().copied().map(u64::from).sum();
    same("sum", sum, admitted[asked.slot as usize])?;
    Ok((answer, lists))
}

/// The slots of a trace that are asked for: all, or the first, the last and some between.
fn slots_asked(asked: &Asked, dice: &mut Dice) -> Vec<u32> {
    let last = asked.slot;
    if asked.length() <= SLOTS_ASKED {
        return (0..=last).collect();
    }
    let between = (2..SLOTS_ASKED).map(|_| dice.between(1, last));
    [0, last].into_iter().chain(between).collect()
}

/// A difference comes with the case.
fn check_slots(asked: &Asked, dice: &mut Dice) -> Result<(), String> {
    let admitted = admitted_by(asked);
    for slot in slots_asked(asked, dice) {
        let asked = asked.at(slot);
        check_found(&asked, &admitted).map_err(|problem| format!("{asked:?}: {problem}"))?;
    }
    Ok(())
}

#[test]
fn streams() {
    for_each_drawn(STREAMS, |dice| {
        check_slots(&Asked::last_of(draw::any(dice)), dice)
    });
}

#[test]
fn long_streams() {
    for_each_drawn(LONG_STREAMS, |dice| {
        let file = draw::stream(dice, 1, 64, 4_000, 4_096);
        check_slots(&Asked::last_of(file), dice)
    });
}

/// Chains of every number of links up to four, and links of every mark, are met often.
#[test]
fn every_kind_is_drawn() {
    let seed = seed().unwrap_or_else(|problem| panic!("{problem}"));
    let (mut by_places, mut by_mark) = ([0; 6], [0; 4]);
    for number in 0..STREAMS as u64 {
        let asked = Asked::last_of(draw::any(&mut Dice::new(seed, number)));
        let (FoundChain { places, .. }, [_, marks, _]) =
            asked.found_by_reference([asked.length(); 3]);
        by_places[(places as usize).min(5)] += 1;
        for &mark in &marks[..places as usize] {
            by_mark[mark as usize] += 1;
        }
    }
    println!("SEED={seed} places {by_places:?}, marks {by_mark:?}");
    let rarest = by_places[1..].iter().chain(&by_mark).min();
    assert!(rarest >= Some(&500), "{by_places:?} {by_mark:?}");
}

/// Every trace of up to five slots with 0 to 2 arrivals in each.
fn tiny_traces() -> impl Iterator<Item = Vec<u32>> {
    let digit = |code: u32, slot: u32| code / 3_u32.pow(slot) % 3;
    let trace = move |slots, code| (0..slots).map(|slot| digit(code, slot)).collect();
    (0..=5).flat_map(move |slots| (0..3_u32.pow(slots)).map(move |code| trace(slots, code)))
}

#[test]
fn every_tiny_trace_at_every_slot() {
    let limits = [(0, 1), (1, 0), (1, NO_BUFFER), (NO_DELAY, 1)];
    let tables: [&[u32]; 4] = [&[0, 1], &[0, 2, 3], &[0, 0, 1], &[0, 1, 1, 4]];
    for (table, limits) in tables.iter().flat_map(|table| limits.map(|d| (table, d))) {
        for arrivals in tiny_traces() {
            let asked = Asked {
                table: table.to_vec(),
                limits,
                slot: arrivals.len() as u32,
                arrivals,
            };
            let done = check_slots(&asked, &mut Dice::new(0, 0));
            done.unwrap_or_else(|problem| panic!("{problem}"));
        }
    }
}

/// Two packets, none, two packets, ..: one of the two is lost, and without the empty slot between
/// them the next link could begin earlier. So each slot is a link of its own, which is as many links
/// as there can be.
fn a_link_in_every_slot(limits: (u32, u32)) -> Asked {
    Asked {
        table: vec![0, 1],
        limits,
        arrivals: [2, 0].repeat(2_048),
        slot: 4_096,
    }
}

#[test]
fn the_most_links() {
    for (limits, mark) in [((0, NO_BUFFER), 2), ((NO_DELAY, 1), 3), ((0, 1), 2)] {
        let asked = a_link_in_every_slot(limits);
        let found = check_found(&asked, &admitted_by(&asked));
        let (answer, [slots, marks, amounts]) = found.unwrap_or_else(|problem| panic!("{problem}"));
        assert_eq!(answer.places, 4_097);
        assert_eq!(slots, (0..=4_096).collect::<Vec<u32>>());
        assert_eq!(marks[1..], [mark, 1].repeat(2_048));
        assert_eq!(amounts[1..], [1, 0].repeat(2_048));
    }
}

/// The stack that the header speaks of is enough for the most links; too small a one would end the
/// whole test.
#[test]
fn the_header_s_stack() {
    let asked = a_link_in_every_slot((0, 1_000_000));
    let small = thread::Builder::new().stack_size(1 << 20);
    let found = small.spawn(move || asked.find([asked.length(); 3]).0);
    let found = found.expect("a thread").join().expect("an answer");
    assert_eq!((found.number, found.places), (0, 4_097));
}

/// Amounts close to the largest that a found chain has, for each mark: 1,000,000 packets in each of
/// 4,096 slots, none of them lost, then some by the delay limit, then some by the buffer.
#[test]
fn the_largest_amounts() {
    for (entry, limits, mark, amount) in [
        (1_000_000, (64, 1_000_000), 1, 4_096_000_000),
        (984_615, (64, NO_BUFFER), 2, 4_095_998_400),
        (999_999, (NO_DELAY, 1_000_000), 3, 4_095_995_905),
    ] {
        let asked = Asked {
            table: vec![0, entry],
            limits,
            arrivals: vec![1_000_000; 4_096],
            slot: 4_096,
        };
        let found = check_found(&asked, &admitted_by(&asked));
        let (answer, [_, marks, amounts]) = found.unwrap_or_else(|problem| panic!("{problem}"));
        assert_eq!((answer.places, marks[1], amounts[1]), (2, mark, amount));
    }
}
