//! A port's run over lent lists, and what the reference fills them with.

use bezhantiru::{PortLists, port};
use reference::port::Lists;
use tests_program::port::Drawn;

use crate::lent::{Run, lend_each};

/// A run over lists of the given lengths: sent, late.
pub fn run(drawn: &Drawn, lengths: [usize; 2]) -> Run<2> {
    lend_each(lengths, |[sent, late]| {
        let (slots, capacity) = (drawn.slots, drawn.capacity);
        let lists = PortLists { sent, late };
        port::run(&drawn.deadlines, slots, capacity, &drawn.input, lists)
    })
}

/// An accepted run with these lists.
pub fn accepted(lists: Lists) -> Run<2> {
    let narrow = |counts: Vec<u64>| counts.into_iter().map(|count| count as u32).collect();
    Run {
        outcome: Ok(()),
        lists: [lists.sent, lists.late].map(narrow),
    }
}
