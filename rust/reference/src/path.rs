//! Regulators in a row. Document 02, 2.5.

use crate::refusal::{self, Refusal};
use crate::regulator::{Limits, next_admitted, next_departed};
use crate::trace::Lists;
use crate::{closure, least};

/// The lists, or the first refusal of 17, the tables, 6, 7, 23, 10, 11, 8; the departed list is stages ×
/// slots long, each stage's departures after those of the stage before. `list_lengths` are the
/// lengths of the lent lists.
pub fn run(
    tables: &[Vec<u64>],
    delay: u64,
    buffer: u64,
    arrivals: &[u64],
    list_lengths: [usize; 3],
) -> Result<Lists, Refusal> {
    refusal::path(tables, delay, buffer, arrivals, list_lengths)?;
    let limits = Limits::from_numbers(delay, buffer)?;
    let last = arrivals.len() + limits.delay.unwrap_or(0);
    let admitted = entrance(&entrance_envelope(tables, last), limits, arrivals);
    let mut departed = Vec::new();
    let mut before = admitted.clone();
    for table in tables {
        before = stage(&closure::by_recursion(table, last), &before);
        departed.extend(counts(&before));
    }
    let admitted = counts(&admitted);
    let dropped = arrivals.iter().zip(&admitted);
    Ok(Lists {
        dropped: dropped
            .map(|(arrived, admitted)| arrived - admitted)
            .collect(),
        admitted,
        departed,
    })
}

/// The least of the closed envelopes, window by window; in general not subadditive.
pub fn least_envelope(tables: &[Vec<u64>], last: usize) -> Vec<u64> {
    let closed = tables
        .iter()
        .map(|table| closure::by_recursion(table, last));
    let closed: Vec<Vec<u64>> = closed.collect();
    (0..=last)
        .map(|window| least(closed.iter().map(|f| f[window])))
        .collect()
}

/// The closure of that: the largest subadditive function that is nowhere above it. As a table of
/// windows up to the last it is closed like any other.
pub fn entrance_envelope(tables: &[Vec<u64>], last: usize) -> Vec<u64> {
    closure::by_recursion(&least_envelope(tables, last), last)
}

/// X(0) to X(T): only the entrance drops.
fn entrance(f: &[u64], limits: Limits, arrivals: &[u64]) -> Vec<u64> {
    let mut admitted = vec![0];
    for &count in arrivals {
        admitted.push(next_admitted(f, limits, &admitted, count));
    }
    admitted
}

/// A stage's departed totals, from those of the stage before it.
fn stage(f: &[u64], before: &[u64]) -> Vec<u64> {
    let up_to = |slot| next_departed(f, &before[..=slot]);
    (0..before.len()).map(up_to).collect()
}

fn counts(totals: &[u64]) -> Vec<u64> {
    totals.windows(2).map(|pair| pair[1] - pair[0]).collect()
}
