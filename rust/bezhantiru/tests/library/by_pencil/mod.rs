//! The pencil version over lent lists.

use bezhantiru::{Refusal, boundary, pencil};

use crate::lent::{Run, lend};

/// The wrapper's run over lists of the given lengths, which the boundary has to give too.
pub fn run(table: &[u32], limits: (u32, u32), arrivals: &[u32], lengths: [usize; 3]) -> Run {
    let (delay, buffer) = limits;
    let mut number = 0;
    let found = lend(lengths, |lists| {
        pencil::run(table, delay, buffer, arrivals, lists)
    });
    let below = lend(lengths, |lists| {
        number = boundary::pencil_run(table, delay, buffer, arrivals, lists);
        Ok(())
    });
    assert_eq!(found.outcome.err().map_or(0, Refusal::number), number);
    assert!(found.lists == below.lists, "{table:?} {limits:?}");
    found
}
