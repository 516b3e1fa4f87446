//! Document 02, 2.13: the trace that loses most, beside a search through all traces within tiny limits
//! and beside greed within larger ones. The told loss is what the whole-trace run drops.

use std::sync::atomic::{AtomicUsize, Ordering};
use std::thread;

use bezhantiru::{NO_BUFFER, NO_DELAY};
use reference::worst::{by_greed, by_search};
use tests_program::cases::{for_each_drawn, same};
use tests_program::dice::Dice;
use tests_program::draw;

use crate::most_lost::{Asked, Found, Way};
use crate::whole_trace;

const SEARCHED: usize = 20_000;
const DRAWN: usize = 30_000;
const LONG: usize = 12;

/// The answer, which is the reference's, and its loss, which is what the run drops on the list.
fn check(asked: &Asked, way: Way) -> Result<Found, String> {
    let length = asked.slots as usize;
    let found = asked.find(length);
    let case = |problem| format!("{asked:?}: {problem}");
    same("answer", &found, &asked.by_reference(way, length)).map_err(case)?;
    let run = whole_trace::run(&asked.table, asked.limits, &found.1, [length; 3]);
    same("run", run.outcome, Ok(())).map_err(case)?;
    let dropped: u64 = run.lists[1].iter().copied().map(u64::from).sum();
    same("loss", u64::from(found.0.loss), dropped).map_err(case)?;
    Ok(found)
}

/// A set-up that is accepted.
fn set_up(dice: &mut Dice) -> (Vec<u32>, (u32, u32)) {
    let drawn = draw::any(dice);
    (drawn.table, (drawn.header.delay, drawn.header.buffer))
}

/// A set-up in which a few packets are lost, admitted at once or made to wait.
fn tiny_set_up(dice: &mut Dice) -> (Vec<u32>, (u32, u32)) {
    let mut table = vec![0];
    for _ in 0..dice.between(1, 4) {
        table.push(table[table.len() - 1] + dice.below(4));
    }
    let (delay, some) = (
        dice.pick([0, 1, 1, 2, 3, NO_DELAY, NO_DELAY]),
        dice.below(9),
    );
    let none = if delay == NO_DELAY { some } else { NO_BUFFER };
    (table, (delay, dice.pick([some, some, none])))
}

/// At most some thousand traces are within it.
fn tiny(dice: &mut Dice) -> Asked {
    let (table, limits) = if dice.below(4) == 0 {
        set_up(dice)
    } else {
        tiny_set_up(dice)
    };
    let (slots, most_in_slot) = dice.pick([(5, 3), (4, 5), (3, 9), (6, 2), (2, 20), (1, 50)]);
    let fewer = dice.below(slots + 1);
    let slots = dice.pick([slots, slots, slots, fewer]);
    let most_in_slot = dice.between(most_in_slot / 2, most_in_slot);
    let some = dice.below(slots * most_in_slot + 2);
    Asked {
        table,
        limits,
        slots,
        most_in_slot,
        most_in_all: dice.pick([some, some, some, u32::MAX]),
    }
}

/// All traces within the limits are tried: the loss is the greatest, and the trace is the first among
/// those that lose as much.
#[test]
fn beside_a_search_through_all_traces() {
    let lossy = AtomicUsize::new(0);
    for_each_drawn(SEARCHED, |dice| {
        let (answer, _) = check(&tiny(dice), by_search)?;
        lossy.fetch_add(usize::from(answer.loss > 0), Ordering::Relaxed);
        Ok(())
    });
    let lossy = lossy.into_inner();
    println!("{lossy} of {SEARCHED} lose packets");
    assert!(lossy > SEARCHED / 4, "{lossy}");
}

#[test]
fn beside_greed_within_larger_limits() {
    for_each_drawn(DRAWN, |dice| {
        let (table, limits) = set_up(dice);
        let slots = dice.below(60);
        let (few, many) = (dice.below(100), dice.between(0, 1_000_000));
        let most_in_slot = dice.pick([few, few, many, 1_000_000]);
        let some = dice.below((slots * most_in_slot).saturating_add(2));
        let asked = Asked {
            table,
            limits,
            slots,
            most_in_slot,
            most_in_all: dice.pick([some, some, some, 0, u32::MAX]),
        };
        check(&asked, by_greed).map(|_| ())
    });
}

#[test]
fn beside_greed_on_long_traces() {
    for_each_drawn(LONG, |dice| {
        let (table, limits) = set_up(dice);
        let most_in_slot = dice.between(1, 1_000_000);
        let some = dice.below(u32::MAX);
        let asked = Asked {
            table,
            limits,
            slots: dice.pick([4_095, 4_096]),
            most_in_slot,
            most_in_all: dice.pick([some, most_in_slot * 2_048, u32::MAX]),
        };
        check(&asked, by_greed).map(|_| ())
    });
}

/// The longest traces with the largest counts, all of them lost or none.
fn largest(entry: u32, limits: (u32, u32), most_in_all: u32) -> Asked {
    Asked {
        table: vec![0, entry],
        limits,
        slots: 4_096,
        most_in_slot: 1_000_000,
        most_in_all,
    }
}

/// The greatest loss is the largest that 4,096 slots can have; 32 bits hold it.
#[test]
fn the_largest_losses() {
    for (asked, loss) in [
        (largest(0, (0, NO_BUFFER), u32::MAX), 4_096_000_000),
        (largest(9, (NO_DELAY, 0), u32::MAX), 4_096_000_000),
        (largest(0, (64, 0), 4_095_999_999), 4_095_999_999),
        (largest(1_000_000, (0, NO_BUFFER), u32::MAX), 0),
        (largest(1, (0, 1), 4_000_000_001), 3_999_996_000),
    ] {
        let found = check(&asked, by_greed).unwrap_or_else(|problem| panic!("{problem}"));
        assert_eq!((found.0.number, found.0.loss), (0, loss), "{asked:?}");
    }
}

/// The stack that the header speaks of is enough; too small a one would end the whole test.
#[test]
fn the_header_s_stack() {
    let small = thread::Builder::new().stack_size(1 << 17);
    let asked = largest(1, (0, 1), u32::MAX);
    let found = small.spawn(move || asked.find(4_096).0);
    let found = found.expect("a thread").join().expect("an answer");
    assert_eq!((found.number, found.loss), (0, 4_095_995_904));
}
