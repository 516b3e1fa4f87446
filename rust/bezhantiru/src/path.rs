//! Regulators in a row. Document 02, 2.5.

use std::array;

use crate::boundary::{self, Lists};
use crate::refusal::Refusal;

/// Fills the lists for the arrivals of slots 1, 2, .. of a path with one stage for each table and one
/// d and q for all of it, or gives the first refusal of 17, the tables from the first on, 6, 7, 23,
/// 10, 11, 8 and leaves the lists as they were. Only the entrance drops. `departed` is stages × slots
/// long and gets each stage's departures in turn.
///
/// ```
/// use bezhantiru::{Lists, Refusal, path};
///
/// # fn main() -> Result<(), Refusal> {
/// let (mut admitted, mut dropped, mut departed) = ([0; 4], [0; 4], [0; 8]);
/// let lists = Lists {
///     admitted: &mut admitted,
///     dropped: &mut dropped,
///     departed: &mut departed,
/// };
/// path::run(&[&[0, 2, 3][..], &[0, 1]], 1, 9, &[5, 0, 4, 0], lists)?;
/// assert_eq!((admitted, dropped), ([2, 0, 2, 0], [3, 0, 2, 0]));
/// let (first, second) = departed.split_at(4);
/// assert_eq!((first, second), (&[2, 0, 2, 0][..], &[1, 1, 1, 1][..]));
/// # Ok(())
/// # }
/// ```
pub fn run<Table: AsRef<[u32]>>(
    tables: &[Table],
    delay: u32,
    buffer: u32,
    arrivals: &[u32],
    lists: Lists<'_>,
) -> Result<(), Refusal> {
    // A number of stages that 32 bits do not hold is as wrong as the largest that they do.
    let stages = u32::try_from(tables.len()).unwrap_or(u32::MAX);
    let lent = array::from_fn(|stage| tables.get(stage).map_or(&[][..], Table::as_ref));
    Refusal::check(boundary::path_run(
        stages, lent, delay, buffer, arrivals, lists,
    ))
}
