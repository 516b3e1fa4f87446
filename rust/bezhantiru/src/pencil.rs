//! All short traces, in order, and the pencil version of the whole-trace run. Document 02, 2.14.

use crate::boundary::{self, Lists};
use crate::refusal::Refusal;

/// Fills the list with every trace of 0 to 5 slots that has 0 to 3 arrivals in each, a single time
/// each and by dictionary order of the counts, trace after trace; or gives the first refusal of 24, 11
/// and leaves the list as it was. It is slots × 4-to-the-power-slots numbers long.
///
/// ```
/// use bezhantiru::{Refusal, pencil::short_traces};
///
/// # fn main() -> Result<(), Refusal> {
/// let mut counts = [0; 2 * 16];
/// short_traces(2, &mut counts)?;
/// assert_eq!(counts[..10], [0, 0, 0, 1, 0, 2, 0, 3, 1, 0]);
/// assert_eq!(short_traces(6, &mut counts), Err(Refusal::ShortTraceTooLong));
/// # Ok(())
/// # }
/// ```
pub fn short_traces(slots: u32, counts: &mut [u32]) -> Result<(), Refusal> {
    Refusal::check(boundary::short_traces(slots, counts))
}

/// Fills the lists with what [`crate::run`] fills them with, for traces of at most 5 slots: admitted
/// totals are worked from all earlier departures, and departures from admitted totals. Or gives the
/// first refusal of table, 6, 7, 23, 24, 11, 8 and leaves the lists as they were.
///
/// ```
/// use bezhantiru::{Lists, Refusal, pencil};
///
/// # fn main() -> Result<(), Refusal> {
/// let [mut admitted, mut dropped, mut departed] = [[0; 4]; 3];
/// let lists = Lists {
///     admitted: &mut admitted,
///     dropped: &mut dropped,
///     departed: &mut departed,
/// };
/// pencil::run(&[0, 2, 3], 1, 9, &[5, 0, 4, 0], lists)?;
/// assert_eq!((admitted, dropped), ([3, 0, 3, 0], [2, 0, 1, 0]));
/// assert_eq!(departed, [2, 1, 2, 1]);
/// # Ok(())
/// # }
/// ```
pub fn run(
    table: &[u32],
    delay: u32,
    buffer: u32,
    arrivals: &[u32],
    lists: Lists<'_>,
) -> Result<(), Refusal> {
    Refusal::check(boundary::pencil_run(table, delay, buffer, arrivals, lists))
}
