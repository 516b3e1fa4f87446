//! An envelope that varies with time. Document 02, 2.10.

use crate::boundary::{self, Lists, Square};
use crate::refusal::Refusal;

/// Fills the lists for the arrivals of slots 1, 2, .. under a square, whose entry `square[s][t]` is the
/// most that may depart in slots s+1 to t; or gives the first refusal of 19, 3 and 4 along the rows, 6,
/// 7, 23, 20, 11, 8 and leaves the lists as they were. The square need not be closed. With T slots
/// entries of slots up to T + d are looked at, up to T with no delay limit.
///
/// A link that lets 2 packets go in each slot, and none in slots 3 to 5:
///
/// ```
/// use bezhantiru::{Lists, NO_DELAY, Refusal, square};
///
/// # fn main() -> Result<(), Refusal> {
/// let mut link = [[0; 33]; 33];
/// for (s, row) in link.iter_mut().enumerate() {
///     for t in s + 1..33 {
///         let stopped = (3..=5).contains(&t);
///         row[t] = row[t - 1] + if stopped { 0 } else { 2 };
///     }
/// }
/// let (mut admitted, mut dropped, mut departed) = ([0; 6], [0; 6], [0; 6]);
/// let lists = Lists {
///     admitted: &mut admitted,
///     dropped: &mut dropped,
///     departed: &mut departed,
/// };
/// square::run(&link, NO_DELAY, 5, &[3, 3, 3, 3, 3, 0], lists)?;
/// assert_eq!(admitted, [3, 3, 3, 0, 0, 0]);
/// assert_eq!(dropped, [0, 0, 0, 3, 3, 0]);
/// assert_eq!(departed, [2, 2, 0, 0, 0, 2]);
/// # Ok(())
/// # }
/// ```
pub fn run(
    square: &Square,
    delay: u32,
    buffer: u32,
    arrivals: &[u32],
    lists: Lists<'_>,
) -> Result<(), Refusal> {
    Refusal::check(boundary::square_run(square, delay, buffer, arrivals, lists))
}
