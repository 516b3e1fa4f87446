//! Document 02, 2.10: runs under envelopes that vary with time beside the reference, beside the run of
//! the table that a square is made from, and with other entries where none is looked at, on squares,
//! limits and traces drawn at random.

use std::{array, thread};

use bezhantiru::{NO_BUFFER, NO_DELAY};
use reference::permitted::{self, Pair, Terms};
use reference::regulator::Limits;
use reference::square::{LAST_SLOT, close, of_table};
use tests_program::cases::{for_each_drawn, said, same, wide};
use tests_program::dice::{Dice, seed};
use tests_program::draw;
use tests_program::square::{self, Drawn, Square};

use crate::varying::{by_reference, run_drawn};
use crate::whole_trace;

const RUNS: usize = 20_000;

/// The problem with the run that it arose in.
fn in_run(drawn: &Drawn, outcome: Result<(), String>) -> Result<(), String> {
    outcome.map_err(|problem| format!("{problem}\n{drawn:?}"))
}

/// Our pair keeps F itself, and the limits.
fn check_permitted(drawn: &Drawn, [admitted, _, departed]: &[Vec<u32>; 3]) -> Result<(), String> {
    let limits = Limits::from_numbers(drawn.delay.into(), drawn.buffer.into());
    let terms = Terms {
        f: &drawn.wide_square(),
        limits: said(limits)?,
        arrived: &permitted::totals(&wide(&drawn.arrivals)),
    };
    let pair = Pair {
        admitted: permitted::totals(&wide(admitted)),
        departed: permitted::totals(&wide(departed)),
    };
    same("permitted", terms.permit(&pair), true)
}

/// A square of the reference whose entries are those of an accepted one, or below.
fn narrow(square: &reference::square::Square) -> Square {
    square.map(|row| row.map(|entry| entry as u32))
}

/// Anything that is accepted, in place of the entries of slots that are not looked at.
fn refilled(drawn: &Drawn, dice: &mut Dice) -> Square {
    let mut square = drawn.square;
    for (s, row) in square.iter_mut().enumerate() {
        for t in drawn.reached().max(s) + 1..=LAST_SLOT {
            let step = dice.pick([0, 0, 1, 1_000, 1_000_000]);
            row[t] = (row[t - 1] + step).min(1_000_000);
        }
    }
    square
}

fn check(drawn: &Drawn, dice: &mut Dice) -> Result<(), String> {
    let found = run_drawn(drawn);
    same("lists", &found, &by_reference(drawn)?)?;
    check_permitted(drawn, &found.lists)?;
    for (what, square) in [
        ("closed", narrow(&close(&drawn.wide_square()))),
        ("refilled", refilled(drawn, dice)),
    ] {
        let other = Drawn {
            square,
            ..drawn.clone()
        };
        in_run(&other, same(what, run_drawn(&other), run_drawn(drawn)))?;
    }
    Ok(())
}

#[test]
fn runs() {
    for_each_drawn(RUNS, |dice| {
        let drawn = square::any(dice);
        in_run(&drawn, check(&drawn, dice))
    });
}

/// A table whose envelope does not pass 1,000,000 within 32 slots, and its square.
fn made(dice: &mut Dice) -> (Vec<u32>, Square) {
    loop {
        let table = draw::any(dice).table;
        let square = of_table(&wide(&table));
        if square[0][LAST_SLOT] <= 1_000_000 {
            return (table, narrow(&square));
        }
    }
}

#[test]
fn a_square_made_from_a_table_gives_the_table_s_run() {
    for_each_drawn(RUNS, |dice| {
        let (table, square) = made(dice);
        let drawn = Drawn {
            square,
            ..square::any(dice)
        };
        let lengths = [drawn.arrivals.len(); 3];
        let limits = (drawn.delay, drawn.buffer);
        let wanted = whole_trace::run(&table, limits, &drawn.arrivals, lengths);
        let checked = same("the table's run", run_drawn(&drawn), wanted);
        in_run(&drawn, checked).map_err(|problem| format!("{problem}\nof {table:?}"))
    });
}

#[test]
fn the_greatest_totals() {
    let full: Square = array::from_fn(|s| {
        let mut row = [1_000_000; LAST_SLOT + 1];
        row[..=s].fill(0);
        row
    });
    for_each_drawn(1, |dice| {
        for (delay, slots) in [(NO_DELAY, 32), (0, 32), (16, 16), (31, 1), (32, 0)] {
            for buffer in [0, 1, 999_999, 1_000_000, NO_BUFFER] {
                if (delay, buffer) != (NO_DELAY, NO_BUFFER) {
                    let drawn = Drawn {
                        square: full,
                        delay,
                        buffer,
                        arrivals: vec![1_000_000; slots],
                    };
                    in_run(&drawn, check(&drawn, dice))?;
                }
            }
        }
        Ok(())
    });
}

/// The stack that the header speaks of is enough; too small a one would end the whole test.
#[test]
fn the_header_s_stack() {
    let drawn = square::any(&mut Dice::new(1, 1));
    let small = thread::Builder::new().stack_size(1 << 16);
    let found = small.spawn(move || run_drawn(&drawn).outcome);
    let found = found.expect("a thread").join().expect("an answer");
    assert_eq!(found, Ok(()));
}

/// Whether packets are dropped, whether they wait, whether the square had to be closed, and whether
/// packets depart although it stops in some slot.
fn kinds(drawn: &Drawn) -> [bool; 4] {
    let lists = drawn.lists().expect("an accepted run");
    let square = drawn.wide_square();
    let reached = drawn.reached();
    let near = |square: &reference::square::Square| -> Vec<Vec<u64>> {
        (0..=reached)
            .map(|s| square[s][..=reached].to_vec())
            .collect()
    };
    [
        lists.dropped.iter().any(|&count| count > 0),
        lists.departed != lists.admitted,
        near(&close(&square)) != near(&square),
        (0..reached).any(|s| square[s][s + 1] == 0)
            && lists.departed.iter().any(|&count| count > 0),
    ]
}

#[test]
fn every_kind_of_run_is_drawn() {
    let seed = seed().unwrap_or_else(|problem| panic!("{problem}"));
    let mut by_kind = [0; 4];
    for number in 0..RUNS as u64 {
        let drawn = square::any(&mut Dice::new(seed, number));
        for (count, is) in by_kind.iter_mut().zip(kinds(&drawn)) {
            *count += usize::from(is);
        }
    }
    println!("SEED={seed} {by_kind:?}");
    assert!(by_kind.iter().all(|&count| count >= 4_000), "{by_kind:?}");
}
