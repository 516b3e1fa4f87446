//! The envelope question. Document 01, "The envelope", and document 02, 2.4.

use crate::boundary;
use crate::refusal::Refusal;

/// f at one window, and how it begins.
#[derive(Clone, Copy, Debug, PartialEq, Eq)]
pub struct Bound {
    /// f, the most that may depart in the window.
    pub packets: u64,
    /// The smallest k from 1 to L, not above the window, for which the table's entry at k plus f at
    /// the remaining window is f; 0 for window 0.
    pub piece: u32,
}

/// f with its first piece at one window from 0 to 4,160, or the first refusal of table, 5.
///
/// ```
/// use bezhantiru::{Bound, Refusal, envelope};
///
/// assert_eq!(envelope(&[0, 2, 3], 4), Ok(Bound { packets: 6, piece: 2 }));
/// assert_eq!(envelope(&[0, 2, 5], 2), Ok(Bound { packets: 4, piece: 1 }));
/// assert_eq!(envelope(&[0, 2, 3], 4_161), Err(Refusal::WindowTooLong));
/// ```
pub fn envelope(table: &[u32], window: u32) -> Result<Bound, Refusal> {
    let bound = boundary::envelope(table, window);
    Refusal::check(bound.number)?;
    Ok(Bound {
        packets: bound.packets,
        piece: bound.piece,
    })
}
