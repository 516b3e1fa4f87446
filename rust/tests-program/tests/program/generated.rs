//! Files drawn at random, accepted and refused: the program prints what the reference prints.

use std::collections::BTreeSet;

use tests_program::cases::for_each_numbered;
use tests_program::compare::compare;
use tests_program::dice::{Dice, seed};
use tests_program::kinds::Tally;
use tests_program::program::Program;
use tests_program::{damage, draw};

const FILES: usize = 24_000;

/// The refusals that a file can meet.
const NUMBERS: [u8; 11] = [1, 2, 3, 4, 6, 7, 8, 10, 12, 13, 14];

const ACCEPTED: [&str; 12] = [
    "table of zeros",
    "subadditive table",
    "table that is not subadditive",
    "no limit",
    "buffer limit alone",
    "delay limit alone",
    "both limits",
    "no slots",
    "no arrivals",
    "arrivals",
    "loss",
    "no loss",
];

fn file(number: usize, dice: &mut Dice) -> Vec<u8> {
    match number % 20 {
        0..=10 => draw::file(dice).to_bytes(),
        11..=16 => damage::faulty(draw::roomy(dice), dice),
        17 | 18 => damage::damaged(&draw::any(dice), dice),
        _ => damage::noise(dice),
    }
}

#[test]
fn the_program_prints_what_the_reference_prints() {
    let program = Program::find().unwrap_or_else(|problem| panic!("{problem}"));
    for_each_numbered(FILES, |number, dice| compare(&program, &file(number, dice)));
}

#[test]
fn every_kind_of_file_is_drawn() {
    let seed = seed().unwrap_or_else(|problem| panic!("{problem}"));
    let mut tally = Tally::default();
    let mut different = BTreeSet::new();
    for number in 0..FILES {
        let file = file(number, &mut Dice::new(seed, number as u64));
        tally.add(&file);
        different.insert(file);
    }
    println!("SEED={seed} {tally:#?}");
    let refusals = NUMBERS.map(|number| format!("refused {number}"));
    for kind in refusals.iter().map(String::as_str).chain(ACCEPTED) {
        assert!(
            tally.count(kind) >= 100,
            "SEED={seed}: {} of {kind}",
            tally.count(kind)
        );
    }
    assert!(
        different.len() >= 20_000,
        "SEED={seed}: {} files",
        different.len()
    );
}
