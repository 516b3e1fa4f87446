//! Document 02, 2.5: every refusal of a path, at every limit and one beyond, in every combination that
//! can meet, and the lists as they were.

use bezhantiru::{NO_BUFFER, NO_DELAY, Refusal};
use reference::refusal::path;
use tests_program::cases::{check_numbers, chosen, for_each_drawn, wide};
use tests_program::compare::check_each;
use tests_program::dice::Dice;
use tests_program::path::Drawn;

use crate::in_a_row;
use crate::judged::{BUFFERS, COUNTS, DELAYS, both, first};
use crate::judged_tables::judged_tables;
use crate::lent::{Run, refused};
use crate::tables::any_table;

const TABLE: [u32; 3] = [0, 2, 3];
const LIMITS: (u32, u32) = (1, 9);
const DRAWN: usize = 40_000;

/// One call of the boundary.
#[derive(Clone, Debug)]
struct Asked {
    stages: u32,
    tables: [Vec<u32>; 4],
    limits: (u32, u32),
    arrivals: Vec<u32>,
    lengths: [usize; 3],
}

impl Asked {
    /// A call that is accepted.
    fn good(stages: u32, arrivals: Vec<u32>) -> Asked {
        Asked {
            stages,
            tables: [(); 4].map(|()| TABLE.to_vec()),
            limits: LIMITS,
            lengths: lengths(stages, arrivals.len()),
            arrivals,
        }
    }

    fn found(&self) -> Run {
        let tables = self.tables.each_ref().map(Vec::as_slice);
        in_a_row::run_first(
            self.stages,
            tables,
            self.limits,
            &self.arrivals,
            self.lengths,
        )
    }

    /// The lists as they were for a refusal's number, as the reference fills them for 0.
    fn wanted(&self, number: u32) -> Result<Run, String> {
        match Refusal::listed(number) {
            Some(refusal) => Ok(refused(refusal, self.lengths)),
            None => in_a_row::by_reference(&Drawn {
                tables: self.tables[..self.stages as usize].to_vec(),
                delay: self.limits.0,
                buffer: self.limits.1,
                arrivals: self.arrivals.clone(),
            }),
        }
    }

    fn check(&self, number: u32) -> Result<(), String> {
        let (found, wanted) = (self.found(), self.wanted(number)?);
        if found == wanted {
            Ok(())
        } else {
            Err(format!("found {found:?}, wanted {wanted:?}, {self:?}"))
        }
    }
}

/// The lengths that fit; a number of stages that is refused has none.
fn lengths(stages: u32, slots: usize) -> [usize; 3] {
    let stages = if stages > 4 { 4 } else { stages as usize };
    [slots, slots, stages * slots]
}

fn check(asked: &Asked, number: u32) {
    let checked = asked.check(number);
    checked.unwrap_or_else(|problem| panic!("{problem}"));
}

const STAGES: [u32; 8] = [0, 1, 2, 3, 4, 5, 1 << 31, u32::MAX];
/// One table for each number from 0 to 4.
const TABLES: [&[u32]; 5] = [&TABLE, &[0], &[1, 0], &[0, 1_000_001], &[0, 3, 2]];
/// The stages, the four tables, and for d, q, the trace's length, the lists' and the counts whether
/// there is a fault.
const CHOICES: [usize; 10] = [STAGES.len(), 5, 5, 5, 5, 2, 2, 2, 2, 2];

/// The call with the chosen faults, and the number of the first of them. Tables beyond the number of
/// stages have theirs too.
fn combined(number: usize) -> (Asked, u32) {
    let [stages, tables @ .., delay, buffer, long, lists, count] = chosen(number, CHOICES);
    let stages = STAGES[stages];
    let faults = [delay, buffer, long, lists, count].map(|fault| fault == 1);
    let [delay, buffer, long, lists, count] = faults;
    let mut arrivals = vec![5; if long { 4_097 } else { 2 }];
    arrivals[1] = if count { 1_000_001 } else { 4 };
    let mut asked = Asked::good(stages, arrivals);
    asked.tables = tables.map(|table| TABLES[table].to_vec());
    asked.limits = (
        if delay { 65 } else { 1 },
        if buffer { 1_000_001 } else { 9 },
    );
    if lists {
        asked.lengths[number % 3] += 1;
    }
    let in_range = (1..=4).contains(&stages);
    let looked_at = if in_range { stages as usize } else { 0 };
    let by_stages = if in_range { 0 } else { 17 };
    let by_table = tables.into_iter().map(|table| table as u32).take(looked_at);
    let rest = faults.into_iter().zip([6, 7, 10, 11, 8]);
    let rest = rest.map(|(fault, number)| if fault { number } else { 0 });
    let wanted = first([by_stages].into_iter().chain(by_table).chain(rest));
    (asked, wanted)
}

#[test]
fn faults_in_every_combination() {
    check_each(CHOICES.iter().product(), |number| {
        let (asked, wanted) = combined(number);
        asked.check(wanted)
    });
}

/// The first table is judged as a whole before any later one.
#[test]
fn two_tables_of_every_kind() {
    for (before, by_before) in judged_tables() {
        for (after, by_after) in judged_tables() {
            for (i, j) in [(0, 1), (0, 2), (0, 3), (1, 2), (1, 3), (2, 3)] {
                let mut asked = Asked::good(4, vec![5]);
                asked.tables[i] = before.clone();
                asked.tables[j] = after.clone();
                check(&asked, first([by_before, by_after]));
                asked.stages = j as u32;
                asked.lengths = lengths(asked.stages, 1);
                check(&asked, by_before);
            }
        }
    }
}

#[test]
fn delays_and_buffers() {
    for stages in 1..=4 {
        for (delay, by_delay) in DELAYS {
            for (buffer, by_buffer) in BUFFERS {
                let mut asked = Asked::good(stages, vec![5, 0, 4]);
                asked.limits = (delay, buffer);
                check(&asked, first([by_delay, by_buffer, both(delay, buffer)]));
            }
        }
    }
}

/// Each list too short and too long, the stages' list also as long as another number of stages asks
/// for; whatever the counts are.
#[test]
fn lists_of_other_lengths() {
    let mut tried = 0;
    for (stages, slots) in (1..=4).flat_map(|stages| [0, 1, 2, 7].map(|slots| (stages, slots))) {
        for (list, fits) in lengths(stages, slots).into_iter().enumerate() {
            let other = (0..=5).map(|stages| stages * slots);
            for length in other.chain([fits + 1, fits.saturating_sub(1), 4_097]) {
                for count in [4, 1_000_001] {
                    let mut asked = Asked::good(stages, vec![count; slots]);
                    asked.lengths[list] = length;
                    let by_count = if count > 4 && slots > 0 { 8 } else { 0 };
                    let by_length = if length == fits { 0 } else { 11 };
                    check(&asked, first([by_length, by_count]));
                    tried += by_length;
                }
            }
        }
    }
    assert!(tried > 11 * 500, "{tried}");
}

#[test]
fn the_longest_trace() {
    for stages in 1..=4 {
        check(&Asked::good(stages, vec![3; 4_096]), 0);
        for length in [4_097, 4_098, 10_000] {
            let mut asked = Asked::good(stages, vec![3; length]);
            check(&asked, 10);
            asked.lengths = [0; 3];
            check(&asked, 10);
            asked.lengths = lengths(stages, 4_096);
            check(&asked, 10);
        }
    }
}

#[test]
fn the_most_arrivals() {
    for (stages, slot) in (1..=4).flat_map(|stages| [0, 3, 6].map(|slot| (stages, slot))) {
        for (count, wanted) in COUNTS {
            let mut arrivals = vec![2; 7];
            arrivals[slot] = count;
            check(&Asked::good(stages, arrivals), wanted);
        }
    }
}

/// A call with few faults anywhere, or none.
fn any(dice: &mut Dice) -> Asked {
    let slots = dice.pick([0, 1, 2, 5, 5, 5, 5, 4_097]);
    let arrivals = (0..slots)
        .map(|_| dice.pick([0, 3, 3, 9, 1_000_000]))
        .collect();
    let mut asked = Asked::good(dice.pick([0, 1, 2, 2, 3, 3, 4, 4, 4, 5]), arrivals);
    for _ in 0..dice.below(3) {
        match dice.below(6) {
            0 => asked.tables[dice.place(4)] = any_table(dice),
            1 => asked.limits.0 = dice.pick(DELAYS).0,
            2 => asked.limits.1 = dice.pick(BUFFERS).0,
            3 => asked.limits = (NO_DELAY, NO_BUFFER),
            4 => asked.lengths[dice.place(3)] = dice.place(7),
            _ => asked
                .arrivals
                .fill(dice.pick([1_000_001, 1 << 31, u32::MAX])),
        }
    }
    asked
}

/// The number that the reference gives for as many tables as there are stages.
fn by_reference(asked: &Asked) -> u32 {
    let mut tables: Vec<Vec<u64>> = asked.tables.iter().map(|table| wide(table)).collect();
    tables.resize(asked.stages as usize, vec![]);
    let (delay, buffer) = (asked.limits.0.into(), asked.limits.1.into());
    let outcome = path(
        &tables,
        delay,
        buffer,
        &wide(&asked.arrivals),
        asked.lengths,
    );
    outcome.map_or_else(|refusal| refusal.number().into(), |()| 0)
}

#[test]
fn drawn_calls() {
    for_each_drawn(DRAWN, |dice| {
        let asked = any(dice);
        asked.check(by_reference(&asked))
    });
}

#[test]
fn every_refusal_is_drawn() {
    let numbers = [0, 1, 2, 3, 4, 6, 7, 8, 10, 11, 17, 23];
    check_numbers(DRAWN, &numbers, 50, |dice| by_reference(&any(dice)));
}

/// Through the wrapper a path has a stage for each table, be they more than 32 bits can count.
#[test]
fn slices_of_too_few_and_too_many_tables() {
    let wanted = refused(Refusal::StagesOutOfRange, [2, 2, 8]);
    for tables in [0, 5, 6, 7, 8, 256, 257, 65_537] {
        for table in [&TABLE[..], &[]] {
            let found = in_a_row::run(&vec![table; tables], LIMITS, &[5, 4], [2, 2, 8]);
            assert_eq!(found, wanted, "{tables} tables");
        }
    }
    const EMPTY: [[u32; 0]; (1 << 32) + 1] = [[]; (1 << 32) + 1];
    let found = in_a_row::run(&EMPTY, (65, NO_BUFFER - 1), &[5, 4], [2, 2, 8]);
    assert_eq!(found, wanted);
}
