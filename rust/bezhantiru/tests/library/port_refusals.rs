//! Document 02, 2.11: every refusal of a port's run, at every limit and one beyond, in every combination
//! that can meet, and the lists as they were.

use std::array;

use bezhantiru::Refusal;
use reference::refusal;
use tests_program::cases::{check_numbers, chosen, for_each_drawn, said};
use tests_program::compare::check_each;
use tests_program::dice::Dice;
use tests_program::port::Drawn;

use crate::judged::{COUNTS, first};
use crate::lent::{Run, refused};
use crate::shared::{accepted, run};

const DRAWN: usize = 40_000;

/// One call.
#[derive(Clone, Debug)]
struct Asked {
    drawn: Drawn,
    lengths: [usize; 2],
}

impl Asked {
    /// A call that is accepted, where streams and slots are.
    fn good(streams: usize, slots: u32) -> Asked {
        let counted = streams * slots.min(300) as usize;
        Asked {
            drawn: Drawn {
                deadlines: vec![3; streams],
                slots,
                capacity: 4,
                input: (0..counted).map(|place| place as u32 % 5).collect(),
            },
            lengths: [counted, streams],
        }
    }

    /// The lists as they were for a refusal's number, as the reference fills them for 0.
    fn wanted(&self, number: u32) -> Result<Run<2>, String> {
        match Refusal::listed(number) {
            Some(refusal) => Ok(refused(refusal, self.lengths)),
            None => Ok(accepted(said(self.drawn.lists())?)),
        }
    }

    fn check(&self, number: u32) -> Result<(), String> {
        let (found, wanted) = (run(&self.drawn, self.lengths), self.wanted(number)?);
        if found == wanted {
            Ok(())
        } else {
            Err(format!("found {found:?}, wanted {wanted:?}, {self:?}"))
        }
    }
}

fn check(asked: &Asked, number: u32) {
    let checked = asked.check(number);
    checked.unwrap_or_else(|problem| panic!("{problem}"));
}

const STREAMS: [usize; 7] = [0, 1, 2, 7, 8, 9, 300];
const SLOTS: [u32; 7] = [0, 1, 5, 256, 257, 1 << 31, u32::MAX];
/// A deadline of the first or of the last stream.
const DEADLINES: [u32; 4] = [64, 65, 1 << 16, u32::MAX];
/// What is added to the length of the input, of the sent list and of the late list.
const LENGTHS: [[isize; 3]; 8] = [
    [0, 0, 0],
    [1, 0, 0],
    [0, 1, 0],
    [0, 0, 1],
    [-1, 0, 0],
    [0, -1, 0],
    [0, 0, -1],
    [1, 1, 1],
];
const CHOICES: [usize; 6] = [
    STREAMS.len(),
    SLOTS.len(),
    DEADLINES.len(),
    2,
    LENGTHS.len(),
    3,
];

/// The call with the chosen faults, and the number of the first of them.
fn combined(number: usize) -> (Asked, u32) {
    let [streams, slots, deadline, last, lengths, count] = chosen(number, CHOICES);
    let (streams, slots) = (STREAMS[streams], SLOTS[slots]);
    let mut asked = Asked::good(streams, slots);
    let place = last * streams.saturating_sub(1);
    if let Some(lent) = asked.drawn.deadlines.get_mut(place) {
        *lent = DEADLINES[deadline];
    }
    let fitting = [asked.lengths[0], asked.lengths[0], asked.lengths[1]];
    let more = LENGTHS[lengths];
    let lent: [usize; 3] = array::from_fn(|list| fitting[list].saturating_add_signed(more[list]));
    asked.drawn.input.resize(lent[0], 3);
    asked.lengths = [lent[1], lent[2]];
    let too_large = match asked.drawn.input.last_mut() {
        Some(last) if count > 0 => {
            *last = [1_000_001, u32::MAX][count - 1];
            true
        }
        _ => false,
    };
    let in_range = (1..=8).contains(&streams) && slots <= 256;
    let if_so = |fault: bool, number: u32| if fault { number } else { 0 };
    let wanted = first([
        if_so(!in_range, 21),
        if_so(DEADLINES[deadline] > 64, 22),
        if_so(lent != fitting, 11),
        if_so(too_large, 8),
    ]);
    (asked, wanted)
}

#[test]
fn faults_in_every_combination() {
    check_each(CHOICES.iter().product(), |number| {
        let (asked, wanted) = combined(number);
        asked.check(wanted)
    });
}

#[test]
fn streams_and_slots() {
    for streams in (0..=20).chain([255, 256, 257, 10_000]) {
        for slots in [0, 1, 2, 255, 256, 257, 258, 512, 65_536, 1 << 31, u32::MAX] {
            let in_range = (1..=8).contains(&streams) && slots <= 256;
            check(&Asked::good(streams, slots), if in_range { 0 } else { 21 });
        }
    }
}

/// Every deadline of every stream, on its own.
#[test]
fn deadlines() {
    for streams in 1..=8 {
        for stream in 0..streams {
            for deadline in (0..=70).chain([128, 255, 256, 1 << 16, 1 << 31, u32::MAX]) {
                let mut asked = Asked::good(streams, 3);
                asked.drawn.deadlines[stream] = deadline;
                check(&asked, if deadline > 64 { 22 } else { 0 });
            }
        }
    }
}

/// Every count of the input, on its own.
#[test]
fn the_most_packets() {
    for place in 0..4 * 6 {
        for (count, wanted) in COUNTS {
            let mut asked = Asked::good(4, 6);
            asked.drawn.input[place] = count;
            check(&asked, wanted);
        }
    }
}

/// Each list of each other length, those of other streams and slots among them.
#[test]
fn lists_of_other_lengths() {
    for (streams, slots) in [(1, 0), (1, 7), (3, 0), (3, 7), (8, 7), (8, 256)] {
        let good = Asked::good(streams, slots);
        let counted = good.lengths[0];
        let others = (0..=60).chain([counted.saturating_sub(1), counted + 1, counted + 8, 4_096]);
        for length in others {
            let number = |fits: usize| if length == fits { 0 } else { 11 };
            let mut asked = good.clone();
            asked.drawn.input.resize(length, 1);
            check(&asked, number(counted));
            let mut asked = good.clone();
            asked.lengths[0] = length;
            check(&asked, number(counted));
            let mut asked = good.clone();
            asked.lengths[1] = length;
            check(&asked, number(streams));
        }
    }
}

/// A call with few faults anywhere, or none.
fn any(dice: &mut Dice) -> Asked {
    let streams = dice.pick([0, 1, 2, 3, 8, 8, 9]);
    let mut asked = Asked::good(streams, dice.pick([0, 1, 4, 4, 9, 9, 256, 257]));
    asked.drawn.capacity = dice.pick([0, 1, 5, 1_000_000, u32::MAX]);
    for _ in 0..dice.below(3) {
        let Drawn {
            deadlines, input, ..
        } = &mut asked.drawn;
        let (stream, place) = (dice.place(streams), dice.place(input.len()));
        match dice.below(5) {
            0 if streams > 0 => deadlines[stream] = dice.pick([0, 64, 65, u32::MAX]),
            1 if !input.is_empty() => input[place] = dice.pick([1_000_000, 1_000_001, u32::MAX]),
            2 => input.resize(dice.place(40), 1),
            3 => asked.lengths[0] = dice.place(40),
            _ => asked.lengths[1] = dice.place(10),
        }
    }
    asked
}

/// The number that the reference gives.
fn by_reference(asked: &Asked) -> u32 {
    let outcome = asked
        .drawn
        .as_input(|port| refusal::port(port.deadlines, port.slots, port.input, asked.lengths));
    outcome.map_or_else(|refusal| refusal.number().into(), |()| 0)
}

#[test]
fn drawn_calls() {
    for_each_drawn(DRAWN, |dice| {
        let asked = any(dice);
        asked.check(by_reference(&asked))
    });
}

#[test]
fn every_refusal_is_drawn() {
    let numbers = [0, 8, 11, 21, 22];
    check_numbers(DRAWN, &numbers, 1_000, |dice| by_reference(&any(dice)));
}
