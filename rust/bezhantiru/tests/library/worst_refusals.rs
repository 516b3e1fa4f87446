//! Document 02, 2.13: what is refused of the trace that loses most, at every limit and one beyond, and
//! the order: set-up, 10, 11, 8.

use bezhantiru::boundary::Worst;
use reference::worst::by_greed;

use crate::faults::{Fault, SetUp, for_each_choice, for_each_set_up};
use crate::judged::first;
use crate::most_lost::Asked;
use crate::one_list::rubbish;

/// What is asked for, and the length of the list lent with it.
#[derive(Clone, Debug)]
struct Question {
    asked: Asked,
    length: usize,
}

/// Nothing of it is refused.
fn accepted() -> Question {
    let asked = Asked {
        table: vec![0, 2, 3, 5],
        limits: (1, 9),
        slots: 4,
        most_in_slot: 5,
        most_in_all: 12,
    };
    Question { asked, length: 4 }
}

impl Question {
    /// The number, as the reference has it; refused, the loss is 0 and the list as it was.
    fn gets(&self, number: u32) {
        let Question { asked, length } = self;
        let found = asked.find(*length);
        let said = format!("{self:?}");
        assert_eq!(found.0.number, number, "{said}");
        assert!(found == asked.by_reference(by_greed, *length), "{said}");
        if number != 0 {
            assert_eq!(found.0, Worst { number, loss: 0 }, "{said}");
            assert_eq!(found.1, rubbish(*length), "{said}");
        }
    }
}

impl SetUp for Question {
    fn table(&mut self) -> &mut Vec<u32> {
        &mut self.asked.table
    }

    fn limits(&mut self) -> &mut (u32, u32) {
        &mut self.asked.limits
    }
}

#[test]
fn any_faults_get_the_first_number() {
    let faults: [Fault<Question>; 3] = [
        (10, |question| {
            question.asked.slots = 4_097;
            question.length = 4_097;
        }),
        (11, |question| question.length -= 1),
        (8, |question| question.asked.most_in_slot = 1_000_001),
    ];
    let faults = [&Question::faults()[..], &faults].concat();
    for_each_choice(&accepted(), &faults, Question::gets);
}

#[test]
fn set_ups() {
    for_each_set_up(&accepted(), |mut question, number| {
        question.gets(number);
        question.length = 5;
        question.gets(first([number, 11]));
        question.asked.slots = 4_097;
        question.gets(first([number, 10]));
    });
}

/// Slots, lengths of the list and most in a slot, in every combination.
#[test]
fn slots_lists_and_counts() {
    for (slots, by_slots) in [
        (0, 0),
        (1, 0),
        (4, 0),
        (4_095, 0),
        (4_096, 0),
        (4_097, 10),
        (1 << 31, 10),
        (u32::MAX, 10),
    ] {
        for length in [0, 1, 3, 4, 5, 4_095, 4_096, 4_097, 5_000] {
            let by_length = if length == slots as usize { 0 } else { 11 };
            for (most_in_slot, by_count) in [
                (0, 0),
                (5, 0),
                (1_000_000, 0),
                (1_000_001, 8),
                (1 << 31, 8),
                (u32::MAX, 8),
            ] {
                for most_in_all in [0, 12, u32::MAX] {
                    let mut question = accepted();
                    question.asked.slots = slots;
                    question.asked.most_in_slot = most_in_slot;
                    question.asked.most_in_all = most_in_all;
                    question.length = length;
                    question.gets(first([by_slots, by_length, by_count]));
                }
            }
        }
    }
}
