//! Document 02, 2.14: what the pencil version refuses, at every limit and one beyond, and the order:
//! set-up, 24, 11, 8.

use bezhantiru::Refusal;
use reference::refusal;
use tests_program::cases::wide;

use crate::by_pencil;
use crate::faults::{Fault, SetUp, for_each_choice, for_each_set_up};
use crate::judged::first;
use crate::lent::refused;

/// A trace, and the lengths of the three lists lent with it.
#[derive(Clone, Debug)]
struct Question {
    table: Vec<u32>,
    limits: (u32, u32),
    arrivals: Vec<u32>,
    lengths: [usize; 3],
}

/// Nothing of it is refused.
fn accepted() -> Question {
    Question {
        table: vec![0, 2, 3, 5],
        limits: (1, 9),
        arrivals: vec![5, 0, 4, 0],
        lengths: [4; 3],
    }
}

impl Question {
    /// The number, as the reference has it; refused, the lists are as they were.
    fn gets(&self, number: u32) {
        let found = by_pencil::run(&self.table, self.limits, &self.arrivals, self.lengths);
        let (delay, buffer) = (self.limits.0.into(), self.limits.1.into());
        let (table, arrivals) = (wide(&self.table), wide(&self.arrivals));
        let wanted = refusal::pencil(&table, delay, buffer, &arrivals, self.lengths);
        let wanted = wanted.err().map_or(0, |refusal| refusal.number().into());
        assert_eq!(wanted, number, "{self:?}");
        match Refusal::listed(number) {
            Some(refusal) => assert!(found == refused(refusal, self.lengths), "{self:?}"),
            None => assert_eq!(found.outcome, Ok(()), "{self:?}"),
        }
    }

    /// The same for another trace, with lists of the right length.
    fn with_arrivals(mut self, arrivals: Vec<u32>) -> Question {
        self.lengths = [arrivals.len(); 3];
        self.arrivals = arrivals;
        self
    }
}

impl SetUp for Question {
    fn table(&mut self) -> &mut Vec<u32> {
        &mut self.table
    }

    fn limits(&mut self) -> &mut (u32, u32) {
        &mut self.limits
    }
}

#[test]
fn any_faults_get_the_first_number() {
    for list in 0..3 {
        let other_length: fn(&mut Question) = match list {
            0 => |question| question.lengths[0] -= 1,
            1 => |question| question.lengths[1] += 1,
            _ => |question| question.lengths[2] = 0,
        };
        let faults: [Fault<Question>; 3] = [
            (24, |question| {
                *question = question.clone().with_arrivals(vec![1; 6]);
            }),
            (11, other_length),
            (8, |question| question.arrivals[3] = 1_000_001),
        ];
        let faults = [&Question::faults()[..], &faults].concat();
        for_each_choice(&accepted(), &faults, Question::gets);
    }
}

#[test]
fn set_ups() {
    for_each_set_up(&accepted(), |question, number| {
        question.gets(number);
        let long = question.clone().with_arrivals(vec![1; 6]);
        long.gets(first([number, 24]));
        let many = question.with_arrivals(vec![u32::MAX; 3]);
        many.gets(first([number, 8]));
    });
}

/// A trace that is too long gets 24, however long: 10 never comes.
#[test]
fn slots_lists_and_counts() {
    for (slots, by_slots) in [
        (0, 0),
        (1, 0),
        (4, 0),
        (5, 0),
        (6, 24),
        (4_096, 24),
        (4_097, 24),
        (9_999, 24),
    ] {
        let question = accepted().with_arrivals(vec![1; slots]);
        question.gets(by_slots);
        for list in 0..3 {
            for length in [0, 1, 4, 5, 6, 4_096, 4_097] {
                let by_length = if length == slots { 0 } else { 11 };
                let mut other = question.clone();
                other.lengths[list] = length;
                other.gets(first([by_slots, by_length]));
            }
        }
        for (place, count, by_count) in [
            (0, 1_000_000, 0),
            (0, 1_000_001, 8),
            (slots.saturating_sub(1), 1_000_001, 8),
            (slots / 2, 1 << 31, 8),
            (slots.saturating_sub(1), u32::MAX, 8),
        ] {
            let mut other = question.clone();
            if let Some(slot) = other.arrivals.get_mut(place) {
                *slot = count;
                other.gets(first([by_slots, by_count]));
                other.lengths = [slots + 1; 3];
                other.gets(first([by_slots, 11]));
            }
        }
    }
}
