//! The smallest limits, beside a search through all limits on small cases and beside halving on larger
//! ones. What is told as lost is what the whole-trace run drops, and with one less it drops too many.

use std::sync::atomic::{AtomicUsize, Ordering};
use std::thread;

use bezhantiru::boundary::Size;
use bezhantiru::{NO_BUFFER, NO_DELAY};
use tests_program::cases::{for_each_drawn, same};
use tests_program::dice::Dice;
use tests_program::draw;

use crate::sized::{Asked, Sought};

const SEARCHED: usize = 20_000;
const HALVED: usize = 6_000;
const LONG: usize = 40;

/// A few packets a slot, so that every limit can be tried.
fn small(dice: &mut Dice) -> Asked {
    let mut table = vec![0];
    for _ in 0..dice.between(1, 4) {
        table.push(table[table.len() - 1] + dice.below(4));
    }
    let (slots, empty) = (dice.below(8), dice.pick([0, 0, 1, 3]));
    let most = dice.pick([1, 3, 9]);
    let mut arrivals: Vec<u32> = (0..slots).map(|_| dice.below(most + 1)).collect();
    arrivals.resize(arrivals.len() + empty, 0);
    let (delay, buffer) = (dice.below(65), dice.below(20));
    let mut asked = Asked {
        sought: dice.pick(Sought::BOTH),
        table,
        limits: (
            dice.pick([0, 1, 2, 3, delay, NO_DELAY]),
            dice.pick([0, 1, buffer, buffer, 1_000_000, NO_BUFFER]),
        ),
        arrivals,
        most_lost: 0,
    };
    asked.most_lost = most_lost(&asked, dice);
    asked
}

/// Around what some limit loses, or at an end.
fn most_lost(asked: &Asked, dice: &mut Dice) -> u32 {
    let limit = match asked.sought {
        Sought::Buffer => dice.pick([1, 10, 100, 1_000_000]),
        Sought::Delay => 64,
    };
    let lost = asked.lost_with(dice.below(limit + 1));
    let near = [lost, lost, lost.saturating_sub(1), lost.saturating_add(1)];
    let near = dice.pick(near);
    dice.pick([near, near, near, near, 0, u32::MAX])
}

/// The run loses what is told; with a limit of one less it loses more than was asked for, and so it does
/// with the greatest where none was found.
fn check_by_runs(asked: &Asked, found: Size) -> Result<(), String> {
    let Size { limit, lost, .. } = found;
    same("lost", lost, asked.lost_with(limit))?;
    same("found", found.found, u32::from(lost <= asked.most_lost))?;
    if found.found == 0 {
        return same("greatest", limit, asked.sought.greatest());
    }
    match limit {
        0 => Ok(()),
        _ => same(
            "one less does",
            asked.lost_with(limit - 1) <= asked.most_lost,
            false,
        ),
    }
}

fn check(asked: &Asked, wanted: impl Fn(&Asked) -> Size) -> Result<Size, String> {
    let case = |problem| format!("{asked:?}: {problem}");
    let found = asked.find();
    same("answer", found, wanted(asked)).map_err(case)?;
    check_by_runs(asked, found).map_err(case)?;
    Ok(found)
}

#[test]
fn beside_a_search_through_all_limits() {
    let kinds = [(); 6].map(|()| AtomicUsize::new(0));
    for_each_drawn(SEARCHED, |dice| {
        let asked = small(dice);
        let found = check(&asked, Asked::by_search)?;
        let kind = match (found.found, found.limit) {
            (0, _) => 0,
            (_, 0) => 1,
            _ => 2,
        };
        let kind = kind + if asked.sought == Sought::Buffer { 0 } else { 3 };
        kinds[kind].fetch_add(1, Ordering::Relaxed);
        Ok(())
    });
    let kinds = kinds.map(AtomicUsize::into_inner);
    println!("buffers and delays not found, 0, above 0: {kinds:?}");
    assert!(
        kinds.iter().all(|&count| count > SEARCHED / 30),
        "{kinds:?}"
    );
}

#[test]
fn beside_halving_on_larger_cases() {
    for_each_drawn(HALVED, |dice| {
        let drawn = draw::any(dice);
        check(&of_stream(&drawn, dice), Asked::by_halving).map(|_| ())
    });
}

fn of_stream(drawn: &reference::layout::StreamFile, dice: &mut Dice) -> Asked {
    let mut asked = Asked {
        sought: dice.pick(Sought::BOTH),
        table: drawn.table.clone(),
        limits: (drawn.header.delay, drawn.header.buffer),
        arrivals: drawn.arrivals(),
        most_lost: 0,
    };
    asked.most_lost = most_lost(&asked, dice);
    asked
}

/// The reference would take seconds for each.
#[test]
fn long_traces_by_runs() {
    for_each_drawn(LONG, |dice| {
        let drawn = draw::stream(dice, 1, 64, 4_000, 4_096);
        let asked = of_stream(&drawn, dice);
        check_by_runs(&asked, asked.find()).map_err(|problem| format!("{asked:?}: {problem}"))
    });
}

fn smallest(limit: u32, lost: u32) -> Size {
    Size {
        number: 0,
        found: 1,
        limit,
        lost,
    }
}

fn none_does(sought: Sought, lost: u32) -> Size {
    Size {
        number: 0,
        found: 0,
        limit: sought.greatest(),
        lost,
    }
}

fn asked(sought: Sought, table: &[u32], limits: (u32, u32), arrivals: &[u32]) -> Asked {
    Asked {
        sought,
        table: table.to_vec(),
        limits,
        arrivals: arrivals.to_vec(),
        most_lost: 0,
    }
}

/// The answers to all of these numbers of packets.
fn check_answers(mut asked: Asked, answers: &[(u32, Size)]) {
    for &(most_lost, wanted) in answers {
        asked.most_lost = most_lost;
        let found = check(&asked, Asked::by_halving).unwrap_or_else(|problem| panic!("{problem}"));
        assert_eq!(found, wanted, "{asked:?}");
    }
}

/// Nothing departs and nobody waits for it: each packet takes a place of the buffer.
#[test]
fn buffers_at_the_ends() {
    let of =
        |table: &[u32], delay, arrivals: &[u32]| asked(Sought::Buffer, table, (delay, 7), arrivals);
    let none = |lost| none_does(Sought::Buffer, lost);
    let full = of(&[0, 0], NO_DELAY, &[1_000_000, 1]);
    check_answers(
        full,
        &[
            (0, none(1)),
            (1, smallest(1_000_000, 1)),
            (2, smallest(999_999, 2)),
            (1_000_000, smallest(1, 1_000_000)),
            (1_000_001, smallest(0, 1_000_001)),
            (u32::MAX, smallest(0, 1_000_001)),
        ],
    );
    // Nothing is admitted that could not depart in time.
    let in_time = of(&[0, 0], 64, &[5]);
    check_answers(in_time, &[(4, none(5)), (5, smallest(0, 5))]);
    let no_slots = of(&[0, 2, 3], 255, &[]);
    check_answers(no_slots, &[(0, smallest(0, 0)), (u32::MAX, smallest(0, 0))]);
    let no_arrivals = of(&[0, 2, 3], 0, &[0; 4_096]);
    check_answers(no_arrivals, &[(0, smallest(0, 0))]);
    let at_once = of(&[0, 1_000_000], 0, &[1_000_000]);
    check_answers(at_once, &[(0, smallest(1_000_000, 0))]);
}

/// Of n packets the last one leaves in slot n.
#[test]
fn delays_at_the_ends() {
    let of = |buffer, arrivals: &[u32]| asked(Sought::Delay, &[0, 1], (7, buffer), arrivals);
    let none = |lost| none_does(Sought::Delay, lost);
    for buffer in [65, 1_000_000, NO_BUFFER] {
        let answers = [
            (0, smallest(64, 0)),
            (1, smallest(63, 1)),
            (63, smallest(1, 63)),
            (64, smallest(0, 64)),
            (u32::MAX, smallest(0, 64)),
        ];
        check_answers(of(buffer, &[65]), &answers);
        let answers = [(0, none(935)), (934, none(935)), (935, smallest(64, 935))];
        check_answers(of(buffer, &[1_000]), &answers);
    }
    check_answers(of(64, &[65]), &[(0, none(1)), (1, smallest(63, 1))]);
    check_answers(of(0, &[65]), &[(64, none(65)), (65, smallest(0, 65))]);
    check_answers(of(NO_BUFFER, &[]), &[(0, smallest(0, 0))]);
}

/// The greatest loss is the largest that 4,096 slots can have; 32 bits hold it.
#[test]
fn the_largest_losses() {
    let (all, most) = (4_096_000_000, [1_000_000; 4_096]);
    for (sought, given) in [
        (Sought::Buffer, (64, 7)),
        (Sought::Buffer, (0, 7)),
        (Sought::Delay, (7, 0)),
        (Sought::Delay, (7, NO_BUFFER)),
    ] {
        let mut asked = asked(sought, &[0, 0], given, &most);
        for (most_lost, wanted) in [
            (0, none_does(sought, all)),
            (all - 1, none_does(sought, all)),
            (all, smallest(0, all)),
            (u32::MAX, smallest(0, all)),
        ] {
            asked.most_lost = most_lost;
            assert_eq!(asked.find(), wanted, "{sought:?}, {given:?}, {most_lost}");
        }
    }
    let mut asked = asked(Sought::Buffer, &[0, 0], (NO_DELAY, 7), &most);
    asked.most_lost = all - 1_000_000;
    assert_eq!(asked.find(), smallest(1_000_000, all - 1_000_000));
    asked.most_lost -= 1;
    assert_eq!(asked.find(), none_does(Sought::Buffer, all - 1_000_000));
}

/// The stack that the header speaks of is enough; too small a one would end the whole test.
#[test]
fn the_header_s_stack() {
    for sought in Sought::BOTH {
        let small = thread::Builder::new().stack_size(1 << 17);
        let mut asked = asked(sought, &[0, 1], (1, 1_000_000), &[1_000_000; 4_096]);
        asked.most_lost = 4_096_000_000 - 4_096;
        let found = small.spawn(move || asked.find());
        let found = found.expect("a thread").join().expect("an answer");
        assert_eq!((found.number, found.found), (0, 1), "{sought:?}");
    }
}
