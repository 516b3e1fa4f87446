//! The smallest limits: how large a buffer limit or a delay limit has to be so that no more than so many
//! packets of a trace are lost.

use crate::boundary;
use crate::refusal::Refusal;

/// What is said of limits.
#[derive(Clone, Copy, Debug, PartialEq, Eq)]
pub enum Size {
    /// The smallest limit that loses no more than was asked for, and what it loses.
    Smallest { limit: u32, lost: u32 },
    /// The greatest limit, 1,000,000 packets or 64 slots, loses this, which is more.
    NoneDoes { greatest: u32, lost: u32 },
}

impl Size {
    fn checked(size: boundary::Size) -> Result<Size, Refusal> {
        let (limit, lost) = (size.limit, size.lost);
        Refusal::check(size.number)?;
        Ok(match size.found {
            0 => Size::NoneDoes {
                greatest: limit,
                lost,
            },
            _ => Size::Smallest { limit, lost },
        })
    }
}

/// The smallest buffer limit, 0 to 1,000,000 packets, with which our regulator loses at most so many
/// packets of a trace by its last slot. Where there is no delay limit d, or the trace ends in at least d
/// slots without arrivals, nobody loses as few with a smaller one; where none does, whoever has one up to
/// 1,000,000 loses more. Or the first refusal of table, 6, 10, 8.
///
/// ```
/// use bezhantiru::{Refusal, Size, smallest_buffer};
///
/// # fn main() -> Result<(), Refusal> {
/// let (table, arrivals) = ([0, 2, 3], [5, 0, 4, 0]);
/// let size = smallest_buffer(&table, 1, &arrivals, 3)?;
/// assert_eq!(size, Size::Smallest { limit: 3, lost: 3 });
/// // No buffer makes up for the delay limit, which loses three.
/// let none = Size::NoneDoes { greatest: 1_000_000, lost: 3 };
/// assert_eq!(smallest_buffer(&table, 1, &arrivals, 2)?, none);
/// # Ok(())
/// # }
/// ```
pub fn smallest_buffer(
    table: &[u32],
    delay: u32,
    arrivals: &[u32],
    most_lost: u32,
) -> Result<Size, Refusal> {
    Size::checked(boundary::smallest_buffer(table, delay, arrivals, most_lost))
}

/// The same of the delay limit, 0 to 64 slots, with a buffer limit or none. Where the limit found is d
/// and the trace ends in at least d - 1 slots without arrivals, nobody loses as few with a smaller one;
/// where none does and it ends in at least 64, whoever has one up to 64 loses more. Or the first refusal
/// of table, 7, 10, 8.
///
/// ```
/// use bezhantiru::{NO_BUFFER, Refusal, Size, smallest_delay};
///
/// # fn main() -> Result<(), Refusal> {
/// let (table, arrivals) = ([0, 2, 3], [5, 0, 4, 0]);
/// let size = smallest_delay(&table, NO_BUFFER, &arrivals, 2)?;
/// assert_eq!(size, Size::Smallest { limit: 2, lost: 1 });
/// # Ok(())
/// # }
/// ```
pub fn smallest_delay(
    table: &[u32],
    buffer: u32,
    arrivals: &[u32],
    most_lost: u32,
) -> Result<Size, Refusal> {
    Size::checked(boundary::smallest_delay(table, buffer, arrivals, most_lost))
}
