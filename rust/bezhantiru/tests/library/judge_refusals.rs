//! What the judge refuses, at every limit and one beyond, and the order: set-up, 10, 11, 8. Rows are
//! any numbers, and no number of theirs is refused.

use crate::anyone::{Asked, refused};
use crate::faults::{Fault, SetUp, for_each_choice, for_each_set_up};
use crate::judged::{COUNTS, LENGTHS, first};

/// Nothing of it is refused, and nothing broken.
fn accepted() -> Asked {
    Asked {
        table: vec![0, 2, 3, 5],
        limits: (1, 9),
        arrivals: vec![5, 0, 4, 0],
        admitted: vec![3, 0, 3, 0],
        departed: vec![2, 1, 2, 1],
    }
}

/// The number, as the reference has it; refused, nothing is said of a rule.
fn gets(asked: &Asked, number: u32) {
    let found = asked.judge();
    assert_eq!(found, asked.by_reference(), "{asked:?}");
    assert_eq!(found.number, number, "{asked:?}");
    if number != 0 {
        assert_eq!(found, refused(number), "{asked:?}");
    }
}

/// The same for another trace, with rows of its length.
fn with_arrivals(mut asked: Asked, arrivals: Vec<u32>) -> Asked {
    asked.admitted.resize(arrivals.len(), u32::MAX);
    asked.departed.resize(arrivals.len(), u32::MAX);
    asked.arrivals = arrivals;
    asked
}

impl SetUp for Asked {
    fn table(&mut self) -> &mut Vec<u32> {
        &mut self.table
    }

    fn limits(&mut self) -> &mut (u32, u32) {
        &mut self.limits
    }
}

#[test]
fn any_faults_get_the_first_number() {
    let longer: fn(&mut Asked) = |asked| asked.admitted.push(0);
    let shorter: fn(&mut Asked) = |asked| asked.departed.truncate(3);
    for other_length in [longer, shorter] {
        let faults: [Fault<Asked>; 3] = [
            (10, |asked| {
                *asked = with_arrivals(asked.clone(), vec![1; 4_097])
            }),
            (11, other_length),
            (8, |asked| asked.arrivals[3] = 1_000_001),
        ];
        let faults = [&Asked::faults()[..], &faults].concat();
        for_each_choice(&accepted(), &faults, gets);
    }
}

#[test]
fn set_ups() {
    for_each_set_up(&accepted(), |asked, number| {
        gets(&asked, number);
        let long = with_arrivals(asked.clone(), vec![1; 4_097]);
        gets(&long, first([number, 10]));
        let many = with_arrivals(asked, vec![u32::MAX; 3]);
        gets(&many, first([number, 8]));
    });
}

#[test]
fn slots_and_lists() {
    for (slots, by_slots) in LENGTHS {
        let asked = with_arrivals(accepted(), vec![1; slots]);
        gets(&asked, by_slots);
        for length in [0, 1, 4, 4_095, 4_096, 4_097] {
            let by_length = if length == slots { 0 } else { 11 };
            let number = first([by_slots, by_length]);
            let mut other = asked.clone();
            other.admitted.resize(length, 7);
            gets(&other, number);
            other.departed.resize(length, 7);
            gets(&other, number);
            other.admitted.resize(slots, 7);
            gets(&other, number);
        }
    }
}

/// 8 is for the arrivals of every slot, and for them alone.
#[test]
fn counts() {
    for (count, number) in COUNTS {
        for slots in [1, 4, 4_096] {
            for place in [0, slots / 2, slots - 1] {
                let asked = with_arrivals(accepted(), vec![1; slots]);
                let mut arrivals = asked.clone();
                arrivals.arrivals[place] = count;
                gets(&arrivals, number);
                let mut rows = asked.clone();
                rows.admitted[place] = count;
                gets(&rows, 0);
                rows.departed[place] = count;
                gets(&rows, 0);
            }
        }
    }
}
