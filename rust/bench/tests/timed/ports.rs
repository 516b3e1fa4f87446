//! Ports that are timed beside the library answer what the library answers, refused runs included.

use bench::ports::{Case, DEADLINES, LOADS, agree};
use bench::quick::Refused;
use bench::{heads, places};
use bezhantiru::{PortLists, Refusal, port};
use tests_program::cases::for_each_drawn;
use tests_program::dice::Dice;
use tests_program::port::{Drawn, any};

const RUNS: usize = 20_000;

/// How a run ended, and both lists after it.
type Ran = (Result<(), Refused>, [Vec<u32>; 2]);

fn ran(lengths: [usize; 2], run: impl FnOnce(PortLists<'_>) -> Result<(), Refused>) -> Ran {
    let mut lists = lengths.map(|length| vec![u32::MAX; length]);
    let [sent, late] = &mut lists;
    let outcome = run(PortLists { sent, late });
    (outcome, lists)
}

/// One in four with a fault, or none where there is no place for it.
fn damage(drawn: &mut Drawn, lengths: &mut [usize; 2], dice: &mut Dice) {
    match dice.below(24) {
        0 => drawn.deadlines.resize(dice.pick([0, 9]), 0),
        1 => drawn.slots = dice.pick([257, u32::MAX]),
        2 => drawn.deadlines[0] = dice.pick([65, u32::MAX]),
        3 => drawn.input.push(0),
        4 => lengths[dice.place(2)] += 1,
        5 => drawn.input.iter_mut().for_each(|count| *count = 1_000_001),
        _ => (),
    }
}

#[test]
fn runs_are_the_same() {
    for_each_drawn(RUNS, |dice| {
        let mut drawn = any(dice);
        let mut lengths = drawn.list_lengths();
        damage(&mut drawn, &mut lengths, dice);
        let (deadlines, input) = (&drawn.deadlines, &drawn.input);
        let (slots, capacity) = (drawn.slots, drawn.capacity);
        let wanted = ran(lengths, |lists| {
            port::run(deadlines, slots, capacity, input, lists).map_err(Refusal::number)
        });
        for run in [places::run, heads::run] {
            let found = ran(lengths, |lists| {
                run(deadlines, slots, capacity, input, lists)
            });
            if found != wanted {
                return Err(format!("library {wanted:?}, Rust {found:?}, {drawn:?}"));
            }
        }
        Ok(())
    });
}

/// With half the load nothing need be late, with half as much again much is.
#[test]
fn timed_runs_are_the_same_and_of_every_kind() {
    for deadlines in DEADLINES {
        let late = LOADS.map(|load| agree(&Case::row(deadlines, load)).expect("alike"));
        println!("{deadlines:?} {late:?}");
        assert!(
            late.is_sorted() && late[2] > 1_000,
            "{deadlines:?} {late:?}"
        );
    }
}
