//! A profile of leaky buckets in place of a table. Document 02, 2.2, and the bound by simpler
//! buckets, 2.6.

use crate::fill::{Peaks, Record};
use crate::least;
use crate::refusal::{self, Refusal};
use crate::regulator::{Limits, Row, Totals};

/// A rate in packets a slot, and a burst in packets.
pub type Bucket = (u64, u64);

/// The envelope of accepted buckets: 0 at window 0, and otherwise the least of rate × window +
/// burst.
pub fn envelope(profile: &[Bucket], window: usize) -> u64 {
    if window == 0 {
        return 0;
    }
    let at = |&(rate, burst): &Bucket| rate * window as u64 + burst;
    least(profile.iter().map(at))
}

/// A live device that keeps its whole history, where the real one keeps bucket levels. Its rows are
/// those of theorem 5.1 for the envelope of the buckets, with no end to the windows.
#[derive(Clone, Debug, PartialEq, Eq)]
pub struct Device {
    profile: Vec<Bucket>,
    limits: Limits,
    /// The envelope from window 0 on, as far as it was needed.
    envelope: Vec<u64>,
    totals: Totals,
    peaks: Peaks,
}

impl Device {
    /// A fresh device, or the first refusal of 15, 16, 6, 7, 23.
    pub fn set_up(profile: &[Bucket], delay: u64, buffer: u64) -> Result<Device, Refusal> {
        refusal::bucket_set_up(profile, delay, buffer)?;
        Ok(Device {
            profile: profile.to_vec(),
            limits: Limits::from_numbers(delay, buffer)?,
            envelope: vec![0],
            totals: Totals::fresh(),
            peaks: Peaks::default(),
        })
    }

    /// The slot's record, or the first refusal of 8, 9, which alters nothing.
    pub fn slot(&mut self, arrivals: u64) -> Result<Record, Refusal> {
        let slots_taken = self.totals.slots_taken();
        refusal::slot(arrivals, slots_taken as u64)?;
        self.reach(slots_taken + 1);
        let held_before = self.totals.held(slots_taken);
        let row = self.totals.advance(&self.envelope, self.limits, arrivals);
        let record = Record::of_row(&row, held_before);
        self.peaks = self.peaks.raised_by(&record);
        Ok(record)
    }

    pub fn totals(&self) -> &Totals {
        &self.totals
    }

    pub fn peaks(&self) -> Peaks {
        self.peaks
    }

    fn reach(&mut self, slot: usize) {
        let last = slot + self.limits.delay.unwrap_or(0);
        while self.envelope.len() <= last {
            let window = self.envelope.len();
            self.envelope.push(envelope(&self.profile, window));
        }
    }
}

/// The rows of a fresh device for the arrivals of slots 1, 2, ..
pub fn rows(
    profile: &[Bucket],
    delay: u64,
    buffer: u64,
    arrivals: &[u64],
) -> Result<Vec<Row>, Refusal> {
    let mut device = Device::set_up(profile, delay, buffer)?;
    for &count in arrivals {
        device.slot(count)?;
    }
    let totals = device.totals();
    Ok((1..=arrivals.len()).map(|slot| totals.row(slot)).collect())
}

/// What a device has lost after each slot, and what devices of one of its buckets each have lost.
#[derive(Clone, Debug, PartialEq, Eq)]
pub struct Losses {
    pub device: Vec<u64>,
    pub single: Vec<Vec<u64>>,
}

impl Losses {
    /// After every slot the device's loss is at least that of each single one and at most their sum.
    pub fn keep_the_bound(&self) -> bool {
        self.device.iter().enumerate().all(|(slot, &loss)| {
            let single = || self.single.iter().map(|losses| losses[slot]);
            single().all(|one| one <= loss) && loss <= single().sum()
        })
    }
}

/// The losses with the same limits on the same trace.
pub fn losses(
    profile: &[Bucket],
    delay: u64,
    buffer: u64,
    arrivals: &[u64],
) -> Result<Losses, Refusal> {
    let lost = |buckets: &[Bucket]| {
        let rows = rows(buckets, delay, buffer, arrivals)?;
        let so_far = |sum: &mut u64, row: &Row| {
            *sum += row.dropped;
            Some(*sum)
        };
        Ok(rows.iter().scan(0, so_far).collect())
    };
    let single: Result<Vec<Vec<u64>>, Refusal> =
        profile.iter().map(|&bucket| lost(&[bucket])).collect();
    Ok(Losses {
        device: lost(profile)?,
        single: single?,
    })
}
