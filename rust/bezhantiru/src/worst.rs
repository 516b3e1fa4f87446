//! The trace that loses most. Document 02, 2.13.

use crate::boundary;
use crate::refusal::Refusal;

/// Writes to the list the trace of so many slots, with at most so many packets in a slot and in all,
/// of which our regulator loses the most by the last slot, and tells that loss; among equals it has
/// the most in slot 1, then in slot 2, and so on. Or gives the first refusal of table, 6, 7, 23, 10,
/// 11, 8 and leaves the list as it was.
///
/// ```
/// use bezhantiru::{Refusal, worst_trace};
///
/// # fn main() -> Result<(), Refusal> {
/// let mut trace = [0; 4];
/// let loss = worst_trace(&[0, 2, 3], 1, 9, 4, 5, 12, &mut trace)?;
/// assert_eq!((trace, loss), ([5, 5, 2, 0], 6));
/// let longer = worst_trace(&[0, 2, 3], 1, 9, 5, 5, 12, &mut trace);
/// assert_eq!(longer, Err(Refusal::ListOfOtherLength));
/// # Ok(())
/// # }
/// ```
pub fn worst_trace(
    table: &[u32],
    delay: u32,
    buffer: u32,
    slots: u32,
    most_in_slot: u32,
    most_in_all: u32,
    trace: &mut [u32],
) -> Result<u32, Refusal> {
    let worst = boundary::worst_trace(
        table,
        delay,
        buffer,
        slots,
        most_in_slot,
        most_in_all,
        trace,
    );
    Refusal::check(worst.number)?;
    Ok(worst.loss)
}
