//! Document 02, 2.10: every refusal of a square's run, at every limit and one beyond, in every
//! combination that can meet, and the lists as they were.

use bezhantiru::{NO_BUFFER, NO_DELAY, Refusal};
use reference::refusal;
use reference::square::LAST_SLOT;
use tests_program::cases::{check_numbers, chosen, for_each_drawn, wide};
use tests_program::compare::check_each;
use tests_program::dice::Dice;
use tests_program::square::{Drawn, Square, widened};

use crate::judged::{BUFFERS, DELAYS, both, first};
use crate::lent::{Run, refused};
use crate::varying;

const DRAWN: usize = 40_000;
const TOO_LARGE: u32 = 1_000_001;

/// One call.
#[derive(Clone, Debug)]
struct Asked {
    square: Square,
    limits: (u32, u32),
    arrivals: Vec<u32>,
    lengths: [usize; 3],
}

/// A square that is accepted: two packets a slot.
fn steady() -> Square {
    let mut square = [[0; LAST_SLOT + 1]; LAST_SLOT + 1];
    for (s, row) in square.iter_mut().enumerate() {
        for t in s + 1..=LAST_SLOT {
            row[t] = row[t - 1] + 2;
        }
    }
    square
}

impl Asked {
    /// A call that is accepted.
    fn good(arrivals: Vec<u32>) -> Asked {
        Asked {
            square: steady(),
            limits: (1, 9),
            lengths: [arrivals.len(); 3],
            arrivals,
        }
    }

    fn found(&self) -> Run {
        varying::run(&self.square, self.limits, &self.arrivals, self.lengths)
    }

    /// The lists as they were for a refusal's number, as the reference fills them for 0.
    fn wanted(&self, number: u32) -> Result<Run, String> {
        match Refusal::listed(number) {
            Some(refusal) => Ok(refused(refusal, self.lengths)),
            None => varying::by_reference(&Drawn {
                square: self.square,
                delay: self.limits.0,
                buffer: self.limits.1,
                arrivals: self.arrivals.clone(),
            }),
        }
    }

    fn check(&self, number: u32) -> Result<(), String> {
        let (found, wanted) = (self.found(), self.wanted(number)?);
        if found == wanted {
            Ok(())
        } else {
            Err(format!("found {found:?}, wanted {wanted:?}, {self:?}"))
        }
    }
}

fn check(asked: &Asked, number: u32) {
    let checked = asked.check(number);
    checked.unwrap_or_else(|problem| panic!("{problem}"));
}

type Place = (usize, usize);

/// On or below the diagonal, in rows before, at and after the other faults.
const BELOW: [Option<Place>; 5] = [
    None,
    Some((0, 0)),
    Some((9, 3)),
    Some((32, 0)),
    Some((32, 32)),
];
/// Places of entries that are too large and of entries that fall, and the number that the rows get.
const ROWS: [(&[Place], &[Place], u32); 8] = [
    (&[], &[], 0),
    (&[(0, 1)], &[], 3),
    (&[(31, 32)], &[], 3),
    (&[], &[(30, 32)], 4),
    (&[(4, 9)], &[(4, 20)], 3),
    (&[(4, 20)], &[(4, 9)], 4),
    (&[(5, 6)], &[(4, 32)], 4),
    (&[(4, 32)], &[(5, 7)], 3),
];
/// Limits, the most slots that they leave, and their number.
const LIMITS: [(u32, u32, usize, u32); 8] = [
    (1, 9, 31, 0),
    (NO_DELAY, 9, 32, 0),
    (65, 9, 0, 6),
    (1, TOO_LARGE, 0, 7),
    (65, TOO_LARGE, 0, 6),
    (33, TOO_LARGE, 0, 7),
    (NO_DELAY, TOO_LARGE, 0, 7),
    (NO_DELAY, NO_BUFFER, 0, 23),
];
/// Slots beyond the most.
const BEYOND: [usize; 3] = [0, 1, 4_100];
/// Which list is one too long, if any; and whether a count is too large.
const CHOICES: [usize; 6] = [BELOW.len(), ROWS.len(), LIMITS.len(), BEYOND.len(), 4, 2];

/// The call with the chosen faults, and the number of the first of them.
fn combined(number: usize) -> (Asked, u32) {
    let [below, rows, limits, beyond, list, count] = chosen(number, CHOICES);
    let (delay, buffer, most, by_limits) = LIMITS[limits];
    let mut asked = Asked::good(vec![5; most + BEYOND[beyond]]);
    asked.limits = (delay, buffer);
    let (large, falling, by_rows) = ROWS[rows];
    for &(s, t) in large {
        asked.square[s][t] = TOO_LARGE;
    }
    for &(s, t) in falling {
        asked.square[s][t] = asked.square[s][t - 1] - 1;
    }
    if let Some((s, t)) = BELOW[below] {
        asked.square[s][t] = 1 + number as u32;
    }
    if let Some(length) = asked.lengths.get_mut(list) {
        *length += 1;
    }
    let too_many = count == 1 && !asked.arrivals.is_empty();
    if too_many {
        asked.arrivals[0] = TOO_LARGE;
    }
    let if_so = |fault: bool, number: u32| if fault { number } else { 0 };
    let wanted = first([
        if_so(BELOW[below].is_some(), 19),
        by_rows,
        by_limits,
        if_so(BEYOND[beyond] > 0, 20),
        if_so(list < 3, 11),
        if_so(too_many, 8),
    ]);
    (asked, wanted)
}

#[test]
fn faults_in_every_combination() {
    check_each(CHOICES.iter().product(), |number| {
        let (asked, wanted) = combined(number);
        asked.check(wanted)
    });
}

/// Every entry on its own, with the smallest and the greatest number that is refused there.
#[test]
fn every_entry() {
    for (s, t) in (0..=LAST_SLOT).flat_map(|s| (0..=LAST_SLOT).map(move |t| (s, t))) {
        let with = |entry: u32| {
            let mut asked = Asked::good(vec![5, 4]);
            asked.square[s][t] = entry;
            asked
        };
        let (before, last) = (2 * t.saturating_sub(s + 1) as u32, t == LAST_SLOT);
        if t <= s {
            check(&with(1), 19);
            check(&with(TOO_LARGE), 19);
            check(&with(u32::MAX), 19);
        } else {
            check(&with(TOO_LARGE), 3);
            check(&with(u32::MAX), 3);
            check(&with(1_000_000), if last { 0 } else { 4 });
            check(&with(before), 0);
            if before > 0 {
                check(&with(before - 1), 4);
            }
        }
    }
}

#[test]
fn delays_and_buffers() {
    for (delay, by_delay) in DELAYS.into_iter().chain([(32, 0), (33, 0)]) {
        for (buffer, by_buffer) in BUFFERS {
            let mut asked = Asked::good(vec![]);
            asked.limits = (delay, buffer);
            let by_length = if (33..=64).contains(&delay) { 20 } else { 0 };
            let numbers = [by_delay, by_buffer, both(delay, buffer), by_length];
            check(&asked, first(numbers));
        }
    }
}

/// 32 - d slots, 32 with no delay limit, are the most; whatever the lists and counts are.
#[test]
fn the_longest_trace() {
    for delay in (0..=64).chain([NO_DELAY]) {
        let ahead = if delay == NO_DELAY { 0 } else { delay as usize };
        for slots in (0..=34).chain([4_096, 4_097]) {
            let mut asked = Asked::good(vec![3; slots]);
            asked.limits = (delay, 9);
            let by_length = if slots + ahead > LAST_SLOT { 20 } else { 0 };
            check(&asked, by_length);
            asked.lengths[slots % 3] += 1;
            check(&asked, first([by_length, 11]));
            asked.arrivals.fill(TOO_LARGE);
            check(&asked, first([by_length, 11]));
        }
    }
}

#[test]
fn the_most_arrivals() {
    for slot in 0..7 {
        for (count, wanted) in [(1_000_000, 0), (TOO_LARGE, 8), (1 << 31, 8), (u32::MAX, 8)] {
            let mut arrivals = vec![2; 7];
            arrivals[slot] = count;
            check(&Asked::good(arrivals), wanted);
        }
    }
}

/// A call with few faults anywhere, or none.
fn any(dice: &mut Dice) -> Asked {
    let slots = dice.pick([0, 1, 5, 5, 24, 24, 31, 32, 33]);
    let arrivals = (0..slots).map(|_| dice.pick([0, 3, 9, 1_000_000]));
    let mut asked = Asked::good(arrivals.collect());
    for _ in 0..dice.below(4) {
        let (s, t) = (dice.place(33), dice.place(33));
        match dice.below(8) {
            0 => asked.square[s.max(t)][s.min(t)] = dice.pick([1, TOO_LARGE]),
            1 | 2 => asked.square[s.min(t)][s.max(t)] = dice.pick([0, 1, 1_000_000, TOO_LARGE]),
            3 => asked.limits.0 = dice.pick([0, 8, 27, 32, 33, 64, 65, 254, NO_DELAY]),
            4 => asked.limits.1 = dice.pick(BUFFERS).0,
            5 => asked.limits = (NO_DELAY, NO_BUFFER),
            6 => asked.lengths[dice.place(3)] = dice.place(34),
            _ => asked.arrivals.fill(dice.pick([TOO_LARGE, u32::MAX])),
        }
    }
    asked
}

/// The number that the reference gives.
fn by_reference(asked: &Asked) -> u32 {
    let (delay, buffer) = (asked.limits.0.into(), asked.limits.1.into());
    let arrivals = wide(&asked.arrivals);
    let square = widened(&asked.square);
    let outcome = refusal::square(&square, delay, buffer, &arrivals, asked.lengths);
    outcome.map_or_else(|refusal| refusal.number().into(), |()| 0)
}

#[test]
fn drawn_calls() {
    for_each_drawn(DRAWN, |dice| {
        let asked = any(dice);
        asked.check(by_reference(&asked))
    });
}

#[test]
fn every_refusal_is_drawn() {
    let numbers = [0, 3, 4, 6, 7, 8, 11, 19, 20, 23];
    check_numbers(DRAWN, &numbers, 300, |dice| by_reference(&any(dice)));
}
