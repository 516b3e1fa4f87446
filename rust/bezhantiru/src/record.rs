//! What is kept of a slot, and its two readers. Document 02, 2.1.

use crate::boundary::{self, SlotRow};
use crate::refusal::Refusal;

/// The packets held before a slot, and those admitted, dropped and departed in it.
#[derive(Clone, Copy, Debug, PartialEq, Eq)]
pub struct Record {
    pub held_before: u64,
    pub admitted: u64,
    pub dropped: u64,
    pub departed: u64,
}

impl Record {
    /// The record in the boundary's answer, or its refusal.
    #[inline]
    pub fn of_row(row: SlotRow) -> Result<Record, Refusal> {
        Refusal::check(row.number)?;
        Ok(Record {
            held_before: row.held_before,
            admitted: row.admitted,
            dropped: row.dropped,
            departed: row.departed,
        })
    }

    /// The fill at the slot's end, as the order form reads it: held before plus admitted less
    /// departed. A fill below 0 is 0, one that 64 bits do not hold the largest number; no slot of a
    /// regulator that was set up gives such a record.
    pub fn form_fill(&self) -> u64 {
        boundary::form_fill(self.held_before, self.admitted, self.departed)
    }

    /// The fill before the departures, as the bench reads it: held before plus admitted, or the
    /// largest number where 64 bits do not hold it.
    pub fn bench_fill(&self) -> u64 {
        boundary::bench_fill(self.held_before, self.admitted)
    }
}
