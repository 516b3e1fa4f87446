//! The whole-trace run. Document 01, "One slot", last paragraph.

use crate::boundary::{self, Lists};
use crate::refusal::Refusal;

/// Fills the lists for the arrivals of slots 1, 2, .., or gives the first refusal of table, 6, 7,
/// 23, 10, 11, 8 and leaves the lists as they were.
pub fn run(
    table: &[u32],
    delay: u32,
    buffer: u32,
    arrivals: &[u32],
    lists: Lists<'_>,
) -> Result<(), Refusal> {
    Refusal::check(boundary::run(table, delay, buffer, arrivals, lists))
}
