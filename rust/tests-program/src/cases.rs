//! Many drawn cases, each with dice of its own, and what is said of one that is not as wanted.

use std::collections::BTreeMap;
use std::fmt::{Debug, Display};

use crate::compare::for_each;
use crate::dice::{Dice, seed};

/// Does the work for every number below `count`. A problem ends the test with the seed and the number
/// that draw the case again.
pub fn for_each_drawn(count: usize, work: impl Fn(&mut Dice) -> Result<(), String> + Sync) {
    for_each_numbered(count, |_, dice| work(dice));
}

/// The same, where the number says which kind of case is drawn.
pub fn for_each_numbered(
    count: usize,
    work: impl Fn(usize, &mut Dice) -> Result<(), String> + Sync,
) {
    let seed = seed().unwrap_or_else(|problem| panic!("{problem}"));
    println!("SEED={seed}");
    let done = for_each(count, |number| {
        work(number, &mut Dice::new(seed, number as u64))
    });
    done.unwrap_or_else(|problem| panic!("SEED={seed}, {problem}"));
}

/// Counts the refusals' numbers of so many drawn cases: each of these comes at least so often.
pub fn check_numbers(
    count: usize,
    numbers: &[u32],
    least: usize,
    number: impl Fn(&mut Dice) -> u32,
) {
    let seed = seed().unwrap_or_else(|problem| panic!("{problem}"));
    let mut tally: BTreeMap<u32, usize> = BTreeMap::new();
    for case in 0..count as u64 {
        *tally.entry(number(&mut Dice::new(seed, case))).or_default() += 1;
    }
    println!("SEED={seed} {tally:?}");
    for number in numbers {
        let times = tally.get(number).copied().unwrap_or(0);
        assert!(times >= least, "SEED={seed}, {number} in {tally:?}");
    }
}

/// One choice at each place by a number, which counts through all of them.
pub fn chosen<const N: usize>(mut number: usize, choices: [usize; N]) -> [usize; N] {
    choices.map(|choices| {
        let choice = number % choices;
        number /= choices;
        choice
    })
}

/// A difference says what was compared, and both sides.
pub fn same<T: PartialEq + Debug>(what: &str, found: T, wanted: T) -> Result<(), String> {
    if found == wanted {
        Ok(())
    } else {
        Err(format!("{what}: found {found:?}, wanted {wanted:?}"))
    }
}

/// The numbers as the reference takes them.
pub fn wide(numbers: &[u32]) -> Vec<u64> {
    numbers.iter().copied().map(u64::from).collect()
}

/// An outcome whose refusal is a problem.
pub fn said<T>(outcome: Result<T, impl Display>) -> Result<T, String> {
    outcome.map_err(|refusal| refusal.to_string())
}
