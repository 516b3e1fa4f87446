//! The live regulator. Document 01, "One slot", and document 02, 2.1 and 2.7.

use crate::boundary;
use crate::preview::Preview;
use crate::record::Record;
use crate::refusal::Refusal;

/// A live regulator, which its owner feeds one slot after another. A clone goes on from the same
/// slot on its own.
#[derive(Clone, Debug, PartialEq, Eq)]
pub struct Regulator {
    state: boundary::Regulator,
}

impl Regulator {
    /// A fresh regulator for f(0) to f(L), d and q, or the first refusal of table, 6, 7, 23.
    pub fn set_up(table: &[u32], delay: u32, buffer: u32) -> Result<Regulator, Refusal> {
        let made = boundary::set_up(table, delay, buffer);
        Refusal::check(made.number)?;
        Ok(Regulator {
            state: made.regulator,
        })
    }

    /// Takes the next slot, or gives the first refusal of 8, 9 and stays as it was.
    #[inline]
    pub fn slot(&mut self, arrivals: u64) -> Result<Record, Refusal> {
        Record::of_row(boundary::slot_in_place(&mut self.state, arrivals))
    }

    /// What the next slot would answer for so many packets, or its refusal of 8, 9; the regulator is
    /// not advanced.
    ///
    /// A source encoder that asks before it sends, and keeps back what would be dropped, loses no
    /// packet:
    ///
    /// ```
    /// use bezhantiru::{Refusal, Regulator};
    ///
    /// # fn main() -> Result<(), Refusal> {
    /// let mut regulator = Regulator::set_up(&[0, 4, 8, 12, 16, 17, 18], 2, 6)?;
    /// let mut kept_back = 0;
    /// let mut sent = 0;
    /// for encoded in [9, 12, 0, 7, 0, 0, 3, 0, 0] {
    ///     let ready: u64 = kept_back + encoded;
    ///     let packets = ready.min(regulator.preview(0)?.headroom);
    ///     let record = regulator.slot(packets)?;
    ///     assert_eq!((record.admitted, record.dropped), (packets, 0));
    ///     kept_back = ready - packets;
    ///     sent += packets;
    /// }
    /// assert_eq!((sent, kept_back), (31, 0));
    /// # Ok(())
    /// # }
    /// ```
    #[inline]
    pub fn preview(&self, arrivals: u64) -> Result<Preview, Refusal> {
        Preview::of_row(boundary::preview(&self.state, arrivals))
    }

    /// The greatest fill at a slot's end since it was fresh, as the order form reads it; 0 before
    /// the first slot.
    pub fn form_peak(&self) -> u64 {
        self.state.form_peak
    }

    /// The greatest fill before a slot's departures since it was fresh, as the bench reads it; 0
    /// before the first slot.
    pub fn bench_peak(&self) -> u64 {
        self.state.bench_peak
    }

    /// The numbers of this regulator, for keeping it elsewhere.
    pub fn state(&self) -> &boundary::Regulator {
        &self.state
    }

    /// The regulator with these numbers. If no set-up or slot gave them, what its slots answer is
    /// not settled, but they still return.
    pub fn from_state(state: boundary::Regulator) -> Regulator {
        Regulator { state }
    }
}
