//! The device of leaky buckets. Document 02, 2.2.

use crate::boundary;
use crate::record::Record;
use crate::refusal::Refusal;

/// A live device of one to four leaky buckets, which its owner feeds one slot after another. A clone
/// goes on from the same slot on its own.
///
/// ```
/// use bezhantiru::{Device, NO_DELAY, Refusal};
///
/// # fn main() -> Result<(), Refusal> {
/// let buckets = [[4, 0], [1, 12]];
/// let mut device = Device::set_up(buckets.as_flattened(), NO_DELAY, 4)?;
/// let mut lost = 0;
/// for _ in 0..4 {
///     lost += device.slot(6)?.dropped;
/// }
/// assert_eq!((lost, device.form_peak(), device.bench_peak()), (8, 0, 4));
/// assert_eq!(Device::set_up(&[4], NO_DELAY, 4), Err(Refusal::BucketsOutOfRange));
/// # Ok(())
/// # }
/// ```
#[derive(Clone, Debug, PartialEq, Eq)]
pub struct Device {
    state: boundary::Device,
}

impl Device {
    /// A fresh device for d, q and a profile that has the rate and the burst of each bucket in turn,
    /// or the first refusal of 15, 16, 6, 7, 23. A profile of an odd length is refused with 15.
    pub fn set_up(profile: &[u32], delay: u32, buffer: u32) -> Result<Device, Refusal> {
        let made = boundary::device_set_up(profile, delay, buffer);
        Refusal::check(made.number)?;
        Ok(Device { state: made.device })
    }

    /// Takes the next slot, or gives the first refusal of 8, 9 and stays as it was.
    #[inline]
    pub fn slot(&mut self, arrivals: u64) -> Result<Record, Refusal> {
        Record::of_row(boundary::device_slot(&mut self.state, arrivals))
    }

    /// The slots taken since it was fresh.
    pub fn slots(&self) -> u32 {
        self.state.slots
    }

    /// The greatest fill at a slot's end since it was fresh, as the order form reads it; 0 before
    /// the first slot.
    pub fn form_peak(&self) -> u64 {
        self.state.form_peak
    }

    /// The greatest fill before a slot's departures since it was fresh, as the bench reads it; 0
    /// before the first slot.
    pub fn bench_peak(&self) -> u64 {
        self.state.bench_peak
    }

    /// The numbers of this device, for keeping it elsewhere.
    pub fn state(&self) -> &boundary::Device {
        &self.state
    }

    /// The device with these numbers. If no set-up or slot gave them, what its slots answer is not
    /// settled, but they still return.
    pub fn from_state(state: boundary::Device) -> Device {
        Device { state }
    }
}
