//! The whole-trace run over lent lists.

use crate::lent::{Run, lend};

/// A run over lists of the given lengths.
pub fn run(table: &[u32], limits: (u32, u32), arrivals: &[u32], lengths: [usize; 3]) -> Run {
    let (delay, buffer) = limits;
    lend(lengths, |lists| {
        bezhantiru::run(table, delay, buffer, arrivals, lists)
    })
}
