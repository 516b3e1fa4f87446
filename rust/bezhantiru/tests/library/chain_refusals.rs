//! Document 02, 2.8: what finder and checker refuse, at every limit and one beyond, and the order:
//! set-up, 10, 11, 8, 18.

use bezhantiru::boundary::chain::{ChainVerdict, FoundChain};

use crate::chains::{Asked, Lists, rubbish};
use crate::faults::{Fault, SetUp, for_each_choice, for_each_set_up};
use crate::judged::COUNTS;

/// A slot asked for, and the lengths of the three lists lent with it.
#[derive(Clone, Debug)]
struct Question {
    asked: Asked,
    lengths: [usize; 3],
}

/// Nothing of it is refused.
fn accepted() -> Question {
    let asked = Asked {
        table: vec![0, 2, 3, 5],
        limits: (1, 9),
        arrivals: vec![5, 0, 4, 0],
        slot: 3,
    };
    Question {
        asked,
        lengths: [5; 3],
    }
}

impl Question {
    /// The same for another trace, with lists of the right length.
    fn with_arrivals(mut self, arrivals: Vec<u32>) -> Question {
        self.lengths = [arrivals.len() + 1; 3];
        self.asked.arrivals = arrivals;
        self
    }

    /// Lists of zeros, the first place of which is right for any chain.
    fn zeros(&self) -> Lists {
        self.lengths.map(|length| vec![0; length])
    }

    /// Both calls give this number, as the reference does. A refused one tells no places, leaves
    /// every list as it was, and finds nothing sound.
    fn gets(&self, number: u32) {
        let Question { asked, lengths } = self;
        let (answer, lists) = asked.find(*lengths);
        let said = format!("{:?}, slot {}", lengths, asked.slot);
        assert_eq!(answer.number, number, "{said}");
        let wanted = asked.found_by_reference(*lengths);
        assert!((answer, &lists) == (wanted.0, &wanted.1), "{said}");
        for places in [0, 1, 2, u32::MAX] {
            let verdict = asked.check(&self.zeros(), places);
            let wanted = asked.checked_by_reference(&self.zeros(), places);
            assert_eq!(verdict, wanted, "{said}, {places} places");
            assert_eq!(verdict.number, number, "{said}, {places} places");
        }
        if number != 0 {
            assert_eq!(answer, FoundChain { number, places: 0 });
            assert_eq!(lists, lengths.map(rubbish));
            let verdict = asked.check(&lists, 1);
            assert_eq!(verdict, ChainVerdict { number, sound: 0 });
        }
    }
}

impl SetUp for Question {
    fn table(&mut self) -> &mut Vec<u32> {
        &mut self.asked.table
    }

    fn limits(&mut self) -> &mut (u32, u32) {
        &mut self.asked.limits
    }
}

#[test]
fn any_faults_get_the_first_number() {
    let faults: [Fault<Question>; 4] = [
        (10, |question| {
            *question = question.clone().with_arrivals(vec![1; 4_097]);
        }),
        (11, |question| question.lengths[1] -= 1),
        (8, |question| question.asked.arrivals[3] = 1_000_001),
        (18, |question| {
            question.asked.slot = question.asked.arrivals.len() as u32 + 1;
        }),
    ];
    let faults = [&Question::faults()[..], &faults].concat();
    for_each_choice(&accepted(), &faults, Question::gets);
}

#[test]
fn set_ups() {
    for_each_set_up(&accepted(), |question, number| question.gets(number));
}

#[test]
fn lengths_of_the_trace() {
    for (slots, number) in [
        (0, 18),
        (2, 18),
        (3, 0),
        (4_096, 0),
        (4_097, 10),
        (9_999, 10),
    ] {
        accepted().with_arrivals(vec![1; slots]).gets(number);
    }
    let mut empty = accepted().with_arrivals(vec![]);
    for (slot, number) in [(0, 0), (1, 18), (u32::MAX, 18)] {
        empty.asked.slot = slot;
        empty.gets(number);
    }
}

/// Each list alone, and all of them: as long as the trace is one too short.
#[test]
fn lengths_of_the_lists() {
    for slots in [0, 1, 4, 4_096] {
        let mut question = accepted().with_arrivals(vec![1; slots]);
        question.asked.slot = 0;
        for length in [0, slots, slots + 1, slots + 2, 4_097, 4_098] {
            let number = if length == slots + 1 { 0 } else { 11 };
            for list in 0..3 {
                question.lengths = [slots + 1; 3];
                question.lengths[list] = length;
                question.gets(number);
            }
            question.lengths = [length; 3];
            question.gets(number);
        }
    }
}

/// Every slot's arrivals are looked at, also those after the slot asked for.
#[test]
fn arrivals() {
    for (count, number) in COUNTS {
        for slots in [4, 4_096] {
            for place in [0, 1, slots - 1] {
                let mut counts = vec![1; slots];
                counts[place] = count;
                let mut question = accepted().with_arrivals(counts);
                for slot in [0, 1, slots as u32] {
                    question.asked.slot = slot;
                    question.gets(number);
                }
            }
        }
    }
}

#[test]
fn slots() {
    for slots in [0, 1, 4, 4_095, 4_096] {
        let mut question = accepted().with_arrivals(vec![3; slots as usize]);
        for (slot, number) in [
            (0, 0),
            (slots, 0),
            (slots + 1, 18),
            (slots + 2, 18),
            (1 << 31, 18),
            (u32::MAX, 18),
        ] {
            question.asked.slot = slot;
            question.gets(number);
        }
    }
}
