//! A stream's trace: what the library's whole-trace run makes of it, and how it ends.

use bezhantiru::{Lists, Refusal};

/// The packets of each slot.
#[derive(Clone, Debug, PartialEq, Eq)]
pub struct Run {
    pub admitted: Vec<u32>,
    pub dropped: Vec<u32>,
    pub departed: Vec<u32>,
}

impl Run {
    /// The library's, or its first refusal of table, 6, 7, 23, 10, 8.
    pub fn of(table: &[u32], limits: (u32, u32), arrivals: &[u32]) -> Result<Run, Refusal> {
        let [mut admitted, mut dropped, mut departed] = [(); 3].map(|()| vec![0; arrivals.len()]);
        let lists = Lists {
            admitted: &mut admitted,
            dropped: &mut dropped,
            departed: &mut departed,
        };
        bezhantiru::run(table, limits.0, limits.1, arrivals, lists)?;
        Ok(Run {
            admitted,
            dropped,
            departed,
        })
    }
}

/// Packets of some slots together.
pub fn sum(counts: &[u32]) -> u64 {
    counts.iter().copied().map(u64::from).sum()
}

/// As many slots without arrivals does a trace end in.
pub fn empty_at_end(arrivals: &[u32]) -> usize {
    let empty = arrivals.iter().rev().take_while(|&&count| count == 0);
    empty.count()
}
