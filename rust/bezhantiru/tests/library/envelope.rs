//! Document 02, 2.4: f and its first piece beside the reference, refused questions included.

use bezhantiru::boundary::{self, Bound};
use reference::piece;
use tests_program::cases::{for_each_drawn, wide};
use tests_program::dice::{Dice, seed};
use tests_program::draw;

use crate::tables::any_table;

const TABLES: usize = 2_000;
/// Tables that are asked at every window.
const WHOLE_TABLES: usize = 4;
const QUESTIONS: usize = 20_000;
const LAST_QUESTION: u32 = 4_160;
/// Windows at and beside every limit.
const EDGES: [u32; 10] = [0, 1, 2, 63, 64, 65, 128, 129, 4_159, 4_160];

/// What the reference says of a question.
fn wanted(table: &[u32], window: u32) -> Bound {
    match piece::question(&wide(table), window.into()) {
        Ok(answer) => Bound {
            number: 0,
            piece: answer.piece as u32,
            packets: answer.packets,
        },
        Err(refusal) => Bound {
            number: refusal.number().into(),
            piece: 0,
            packets: 0,
        },
    }
}

/// The boundary's answer is the reference's, and the wrapper's the boundary's.
fn check(table: &[u32], window: u32) -> Result<(), String> {
    let (found, wanted) = (boundary::envelope(table, window), wanted(table, window));
    let wrapped = match bezhantiru::envelope(table, window) {
        Ok(bound) => (0, bound.piece, bound.packets),
        Err(refusal) => (refusal.number(), 0, 0),
    };
    if found == wanted && wrapped == (found.number, found.piece, found.packets) {
        Ok(())
    } else {
        Err(format!(
            "{table:?} at {window}: found {found:?}, wrapped {wrapped:?}, wanted {wanted:?}"
        ))
    }
}

#[test]
fn drawn_tables() {
    for_each_drawn(TABLES, |dice| {
        let table = draw::stream(dice, 1, 64, 0, 0).table;
        let near = dice.below(2 * table.len() as u32 + 1);
        let far = dice.below(LAST_QUESTION + 1);
        let mut windows = EDGES.into_iter().chain([near, far]);
        windows.try_for_each(|window| check(&table, window))
    });
}

#[test]
fn every_window_of_some_tables() {
    for_each_drawn(WHOLE_TABLES, |dice| {
        let table = draw::stream(dice, 1, 64, 0, 0).table;
        (0..=LAST_QUESTION + 1).try_for_each(|window| check(&table, window))
    });
}

/// The shortest and the longest tables, with the least and the greatest entries.
#[test]
fn tables_at_the_limits() {
    for entries in [2, 3, 64, 65] {
        for last in [0, 1, 999_999, 1_000_000] {
            let mut flat = vec![last; entries];
            flat[0] = 0;
            let mut late = vec![0; entries];
            late[entries - 1] = last;
            for window in EDGES {
                for table in [&flat, &late] {
                    check(table, window).unwrap_or_else(|problem| panic!("{problem}"));
                }
            }
        }
    }
}

fn any_question(dice: &mut Dice) -> (Vec<u32>, u32) {
    let window = dice.pick([0, 1, 2, 64, 128, 4_160, 4_161, 4_162, 1 << 31, u32::MAX]);
    (any_table(dice), window)
}

#[test]
fn refused_and_accepted_questions() {
    for_each_drawn(QUESTIONS, |dice| {
        let (table, window) = any_question(dice);
        check(&table, window)
    });
}

/// Refusals 1 to 4 also where the window would be refused too, and 5.
#[test]
fn every_outcome_is_drawn() {
    let seed = seed().unwrap_or_else(|problem| panic!("{problem}"));
    let mut tally = [[0; 2]; 6];
    for number in 0..QUESTIONS as u64 {
        let (table, window) = any_question(&mut Dice::new(seed, number));
        let number = wanted(&table, window).number as usize;
        tally[number][usize::from(window > LAST_QUESTION)] += 1;
    }
    println!("SEED={seed} {tally:?}");
    let possible = |[within, beyond]: [usize; 2], number: usize| match number {
        0 => within,
        5 => beyond,
        _ => within.min(beyond),
    };
    for (number, counts) in tally.into_iter().enumerate() {
        assert!(possible(counts, number) >= 100, "SEED={seed} {tally:?}");
    }
}
