//! A device beside devices of one of its buckets each, on the same trace. Document 02, 2.6.

use bezhantiru::{Device, Refusal};
use tests_program::profile::Drawn;

/// What has been dropped after a slot: by the device, and by each single one.
#[derive(Clone, Debug, PartialEq, Eq)]
pub struct Losses {
    pub device: u64,
    pub single: Vec<u64>,
}

impl Losses {
    /// At least each of the single ones' and at most their sum.
    pub fn keep_the_bound(&self) -> bool {
        let lowest = self.single.iter().all(|&one| one <= self.device);
        lowest && self.device <= self.sum()
    }

    pub fn sum(&self) -> u64 {
        self.single.iter().sum()
    }
}

/// The losses after slots 1, 2, ..
pub fn losses(drawn: &Drawn) -> Result<Vec<Losses>, Refusal> {
    let (delay, buffer) = (drawn.delay, drawn.buffer);
    let set_up = |profile| Device::set_up(profile, delay, buffer);
    let mut device = set_up(&drawn.profile)?;
    let buckets = drawn.profile.chunks(2);
    let single: Result<Vec<Device>, Refusal> = buckets.map(set_up).collect();
    let mut single = single?;
    let mut so_far = Losses {
        device: 0,
        single: vec![0; single.len()],
    };
    let mut after = |&arrivals: &u64| {
        so_far.device += device.slot(arrivals)?.dropped;
        for (lost, one) in so_far.single.iter_mut().zip(&mut single) {
            *lost += one.slot(arrivals)?.dropped;
        }
        Ok(so_far.clone())
    };
    drawn.arrivals.iter().map(&mut after).collect()
}
