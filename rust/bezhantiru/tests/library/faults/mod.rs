//! Questions that are spoilt in one way or in several; the first number in the order of refusals is
//! the one wanted.

use bezhantiru::{NO_BUFFER, NO_DELAY};

use crate::judged::{BUFFERS, DELAYS, both, first};
use crate::judged_tables::judged_tables;

/// The number of a refusal, and what earns it; it sees what those before it have done.
pub type Fault<Question> = (u32, fn(&mut Question));

/// A question that begins with a set-up, whose accepted table has four entries.
pub trait SetUp: Clone {
    fn table(&mut self) -> &mut Vec<u32>;
    fn limits(&mut self) -> &mut (u32, u32);

    /// A set-up's faults, in their order.
    fn faults() -> Vec<Fault<Self>> {
        vec![
            (1, |question| question.table().resize(66, 5)),
            (2, |question| question.table()[0] = 1),
            (3, |question| question.table()[1] = 1_000_001),
            (4, |question| question.table()[3] = 1),
            (6, |question| question.limits().0 = 65),
            (7, |question| question.limits().1 = 1_000_001),
            (23, |question| *question.limits() = (NO_DELAY, NO_BUFFER)),
        ]
    }
}

/// Limits that are refused with 6 or 7 are not both none.
fn meet(number: u32, other: u32) -> bool {
    !(matches!(number, 6 | 7) && other == 23)
}

/// Every choice of faults that can meet, none included, with the first of their numbers.
pub fn for_each_choice<Question: Clone>(
    accepted: &Question,
    faults: &[Fault<Question>],
    check: impl Fn(&Question, u32),
) {
    for chosen in 0_u32..1 << faults.len() {
        let picked = (0..faults.len()).filter(|place| chosen >> place & 1 == 1);
        let picked: Vec<Fault<Question>> = picked.map(|place| faults[place]).collect();
        let numbers = || picked.iter().map(|fault| fault.0);
        if numbers().all(|number| numbers().all(|other| meet(number, other))) {
            let mut question = accepted.clone();
            for (_, spoil) in &picked {
                spoil(&mut question);
            }
            check(&question, first(numbers()));
        }
    }
}

/// Tables and limits at every limit and one beyond, with their numbers.
pub fn for_each_set_up<Question: SetUp>(accepted: &Question, check: impl Fn(Question, u32)) {
    for (table, number) in judged_tables() {
        let mut question = accepted.clone();
        *question.table() = table;
        check(question, number);
    }
    for (delay, by_delay) in DELAYS {
        for (buffer, by_buffer) in BUFFERS {
            let mut question = accepted.clone();
            *question.limits() = (delay, buffer);
            let both_none = both(delay, buffer);
            check(question, first([by_delay, by_buffer, both_none]));
        }
    }
}
