//! What the next slot would give. Document 02, 2.7.

use crate::boundary::PreviewRow;
use crate::record::Record;
use crate::refusal::Refusal;

/// An accepted preview.
#[derive(Clone, Copy, Debug, PartialEq, Eq)]
pub struct Preview {
    /// The record that the next slot would give.
    pub record: Record,
    /// The packets that it would admit out of 1,000,000. Out of any accepted number it would admit
    /// the smaller of that number and this one.
    pub headroom: u64,
}

impl Preview {
    /// The preview in the boundary's answer, or its refusal.
    #[inline]
    pub fn of_row(row: PreviewRow) -> Result<Preview, Refusal> {
        Refusal::check(row.number)?;
        Ok(Preview {
            record: Record {
                held_before: row.held_before,
                admitted: row.admitted,
                dropped: row.dropped,
                departed: row.departed,
            },
            headroom: row.headroom,
        })
    }
}
