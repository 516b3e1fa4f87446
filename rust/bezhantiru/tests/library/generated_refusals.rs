//! Set-ups, questions and runs drawn at random, any of which may have to be refused: the number is the
//! reference's, and a refused run leaves the lists as they were.

use bezhantiru::{Refusal, Regulator, envelope};
use reference::refusal;
use tests_program::cases::{for_each_drawn, same, wide};
use tests_program::dice::{Dice, seed};

use crate::lent::refused;
use crate::tables::any_table;
use crate::whole_trace::run;

const INPUTS: usize = 40_000;

fn any_limits(dice: &mut Dice) -> (u32, u32) {
    let delay = dice.pick([0, 1, 64, 255, 0, 1, 64, 255, 65, 254, 256, u32::MAX]);
    let buffer = dice.pick([0, 9, 1_000_000, u32::MAX, 1_000_001, u32::MAX - 1]);
    (delay, buffer)
}

/// Traces that are refused or just pass, and lengths of the lists lent with them.
fn any_trace(dice: &mut Dice) -> (Vec<u32>, [usize; 3]) {
    let slots = dice.pick([0, 1, 2, 5, 5, 5, 4_096, 4_097]);
    let mut arrivals: Vec<u32> = (0..slots).map(|_| dice.below(4)).collect();
    for _ in 0..dice.pick([0, 0, 1, 2]).min(slots) {
        let slot = dice.place(slots);
        arrivals[slot] = dice.pick([1_000_000, 1_000_001, 1 << 31, u32::MAX]);
    }
    let mut lengths = [slots; 3];
    if dice.below(3) == 0 {
        lengths[dice.place(3)] = dice.place(7);
    }
    (arrivals, lengths)
}

/// What is asked of set-up, question and run; any of it may have to be refused.
struct Asked {
    table: Vec<u32>,
    limits: (u32, u32),
    window: u32,
    arrivals: Vec<u32>,
    lengths: [usize; 3],
}

/// The numbers of set-up, question and run, 0 where accepted.
type Numbers = [u32; 3];

impl Asked {
    fn draw(dice: &mut Dice) -> Asked {
        let (arrivals, lengths) = any_trace(dice);
        Asked {
            table: any_table(dice),
            limits: any_limits(dice),
            window: dice.pick([0, 1, 64, 4_160, 4_161, u32::MAX]),
            arrivals,
            lengths,
        }
    }

    fn wanted(&self) -> Numbers {
        let number = |outcome: Result<(), refusal::Refusal>| {
            outcome.err().map_or(0, |refusal| refusal.number().into())
        };
        let (table, arrivals) = (wide(&self.table), wide(&self.arrivals));
        let (delay, buffer) = (self.limits.0.into(), self.limits.1.into());
        [
            number(refusal::set_up(&table, delay, buffer)),
            number(refusal::question(&table, self.window.into())),
            number(refusal::trace(
                &table,
                delay,
                buffer,
                &arrivals,
                self.lengths,
            )),
        ]
    }

    /// What the library answers; a refused run has to leave the lists as they were.
    fn found(&self) -> Result<Numbers, String> {
        let (delay, buffer) = self.limits;
        let done = run(&self.table, self.limits, &self.arrivals, self.lengths);
        if let Err(refusal) = done.outcome {
            same("lists", &done, &refused(refusal, self.lengths))?;
        }
        let number = |refusal: Option<Refusal>| refusal.map_or(0, Refusal::number);
        Ok([
            number(Regulator::set_up(&self.table, delay, buffer).err()),
            number(envelope(&self.table, self.window).err()),
            number(done.outcome.err()),
        ])
    }
}

#[test]
fn refusals() {
    for_each_drawn(INPUTS, |dice| {
        let asked = Asked::draw(dice);
        same("set-up, question, run", asked.found()?, asked.wanted())
    });
}

#[test]
fn every_refusal_is_drawn() {
    let seed = seed().unwrap_or_else(|problem| panic!("{problem}"));
    let mut tally = [[0; 3]; 24];
    for number in 0..INPUTS as u64 {
        let wanted = Asked::draw(&mut Dice::new(seed, number)).wanted();
        for (place, number) in wanted.into_iter().enumerate() {
            tally[number as usize][place] += 1;
        }
    }
    println!("SEED={seed} {tally:?}");
    for [set_up, question, run] in &tally[..=4] {
        assert!(
            *set_up.min(question).min(run) >= 100,
            "SEED={seed} {tally:?}"
        );
    }
    for (number, place) in [
        (5, 1),
        (6, 0),
        (6, 2),
        (7, 0),
        (7, 2),
        (8, 2),
        (10, 2),
        (11, 2),
        (23, 0),
        (23, 2),
    ] {
        assert!(tally[number][place] >= 100, "SEED={seed} {tally:?}");
    }
}
