//! The trace that loses most. Document 02, 2.13.

use crate::refusal::{self, Refusal};
use crate::regulator::Regulator;

/// What a trace is asked for within: n slots, a most per slot and a most in all.
#[derive(Clone, Copy, Debug, PartialEq, Eq)]
pub struct Within {
    pub slots: u64,
    pub most_in_slot: u64,
    pub most_in_all: u64,
}

/// A trace, and what our regulator loses of it by its last slot.
#[derive(Clone, Debug, Default, PartialEq, Eq)]
pub struct Worst {
    pub trace: Vec<u64>,
    pub loss: u64,
}

/// Of all traces within the limits the one that loses most; among equals the most in slot 1, then in
/// slot 2, and so on. Or the first refusal of set-up, 10, 11, 8. The traces are tried one by one, so
/// this is for tiny limits.
pub fn by_search(
    table: &[u64],
    delay: u64,
    buffer: u64,
    within: Within,
    list_length: usize,
) -> Result<Worst, Refusal> {
    let start = Tried::none(table, delay, buffer, within, list_length)?;
    let mut all = Vec::new();
    start.go_on(within, &mut all)?;
    // Of two traces the one with more in the first slot in which they differ is the greater list.
    let greatest = all
        .into_iter()
        .max_by(|one, other| (one.loss, &one.trace).cmp(&(other.loss, &other.trace)));
    Ok(greatest.unwrap_or_default())
}

/// The most per slot until the most in all is used up, and what is lost of that; or the first refusal
/// of set-up, 10, 11, 8. Quick enough for all limits; the tests set it beside the search.
pub fn by_greed(
    table: &[u64],
    delay: u64,
    buffer: u64,
    within: Within,
    list_length: usize,
) -> Result<Worst, Refusal> {
    let mut tried = Tried::none(table, delay, buffer, within, list_length)?;
    for _ in 0..within.slots {
        tried.take(tried.most_next(within))?;
    }
    Ok(tried.so_far)
}

/// The first slots of a trace, and the regulator that took them.
#[derive(Clone)]
struct Tried {
    regulator: Regulator,
    so_far: Worst,
}

impl Tried {
    fn none(
        table: &[u64],
        delay: u64,
        buffer: u64,
        within: Within,
        list_length: usize,
    ) -> Result<Tried, Refusal> {
        let Within {
            slots,
            most_in_slot,
            ..
        } = within;
        refusal::worst_trace(table, delay, buffer, slots, list_length, most_in_slot)?;
        Ok(Tried {
            regulator: Regulator::set_up(table, delay, buffer)?,
            so_far: Worst::default(),
        })
    }

    /// The most that may arrive in the next slot.
    fn most_next(&self, within: Within) -> u64 {
        let arrived: u64 = self.so_far.trace.iter().sum();
        within.most_in_slot.min(within.most_in_all - arrived)
    }

    fn take(&mut self, arrivals: u64) -> Result<(), Refusal> {
        self.so_far.loss += self.regulator.slot(arrivals)?.dropped;
        self.so_far.trace.push(arrivals);
        Ok(())
    }

    /// Every way to go on to a trace within the limits.
    fn go_on(&self, within: Within, all: &mut Vec<Worst>) -> Result<(), Refusal> {
        if self.so_far.trace.len() as u64 == within.slots {
            all.push(self.so_far.clone());
            return Ok(());
        }
        for arrivals in 0..=self.most_next(within) {
            let mut longer = self.clone();
            longer.take(arrivals)?;
            longer.go_on(within, all)?;
        }
        Ok(())
    }
}
