//! The closure f of an envelope table, twice: by its recursion, and by trying every way to fill a
//! window with table entries. Document 01, "The envelope".

use crate::least;
use crate::refusal::{self, Refusal};

/// f(0) to f(last) of an accepted table.
pub fn by_recursion(table: &[u64], last: usize) -> Vec<u64> {
    let mut f = vec![0];
    while f.len() <= last {
        f.push(next(table, &f));
    }
    f
}

/// f at the first window that the list does not reach yet: the least of table(k) + f(n-k) over the
/// windows k from 1 to L that are not above n.
pub fn next(table: &[u64], f: &[u64]) -> u64 {
    let window = f.len();
    let last = table.len() - 1;
    least((1..=last.min(window)).map(|k| table[k] + f[window - k]))
}

/// The least sum of table entries whose windows add up to the wanted one. The work doubles with
/// every window, so this is for small ones.
pub fn by_compositions(table: &[u64], window: usize) -> u64 {
    let sum = |parts: &Vec<usize>| parts.iter().map(|&part| table[part]).sum();
    least(compositions(window, table.len() - 1).iter().map(sum))
}

/// Every list of windows from 1 to `last` that adds up to `window`.
fn compositions(window: usize, last: usize) -> Vec<Vec<usize>> {
    if window == 0 {
        return vec![Vec::new()];
    }
    let mut all = Vec::new();
    for first in 1..=last.min(window) {
        for mut parts in compositions(window - first, last) {
            parts.push(first);
            all.push(parts);
        }
    }
    all
}

/// The envelope question: f at one window.
pub fn question(table: &[u64], window: u64) -> Result<u64, Refusal> {
    refusal::question(table, window)?;
    let window = window as usize;
    Ok(by_recursion(table, window)[window])
}
