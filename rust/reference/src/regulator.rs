//! One slot after another: the clipper's recursion over the whole history, then the regulator's
//! convolution. Document 01, "One slot".

use crate::layout::{NO_BUFFER, NO_DELAY};
use crate::refusal::{self, Refusal};
use crate::{closure, least};

/// Which fill of slot t the buffer limit bounds: packets admitted through it, less those departed.
#[derive(Clone, Copy, Debug, PartialEq, Eq)]
pub enum Count {
    /// The bench's, before the slot's departures. Document 02, 2.9.
    BeforeDepartures,
    /// The order form's, after them. Document 01.
    AfterDepartures,
}

impl Count {
    /// The last slot whose departures the fill of slot t leaves out; likewise, of a window of t slots,
    /// those in which packets may have left.
    pub fn departed_through(self, t: usize) -> usize {
        match self {
            Count::BeforeDepartures => t - 1,
            Count::AfterDepartures => t,
        }
    }
}

/// A limit that is none is no number, so that nothing can be added to it.
#[derive(Clone, Copy, Debug, PartialEq, Eq)]
pub struct Limits {
    /// d, in slots
    pub delay: Option<usize>,
    /// q, in packets
    pub buffer: Option<u64>,
    pub count: Count,
}

impl Limits {
    /// A set-up's or a file's, whose q bounds the fill before departures.
    pub fn from_numbers(delay: u64, buffer: u64) -> Result<Limits, Refusal> {
        refusal::limits(delay, buffer)?;
        Ok(Limits {
            delay: (delay != u64::from(NO_DELAY)).then_some(delay as usize),
            buffer: (buffer != u64::from(NO_BUFFER)).then_some(buffer),
            count: Count::BeforeDepartures,
        })
    }

    /// The same numbers by another count.
    pub fn counted(self, count: Count) -> Limits {
        Limits { count, ..self }
    }

    /// The clipper's buffer term: f(k-1) + q before departures, f(k) + q after them.
    pub fn buffer_term(self, f: &[u64], k: usize) -> Option<u64> {
        let window = self.count.departed_through(k);
        self.buffer.map(|buffer| f[window] + buffer)
    }
}

/// The clipper's envelope g(k): the smaller of f(k+d) and the buffer term. With both limits none
/// there is none.
pub fn clip(f: &[u64], limits: Limits, k: usize) -> Option<u64> {
    let by_delay = limits.delay.map(|delay| f[k + delay]);
    by_delay.into_iter().chain(limits.buffer_term(f, k)).min()
}

/// X(t) from X(0) to X(t-1): the least of X(t-1) plus the arrivals of slot t, and of all
/// X(s) + g(t-s) for s from 0 to t-1.
pub fn next_admitted(f: &[u64], limits: Limits, admitted: &[u64], arrivals: u64) -> u64 {
    let slot = admitted.len();
    let all_in = admitted[slot - 1] + arrivals;
    let clipped = (0..slot).filter_map(|s| Some(admitted[s] + clip(f, limits, slot - s)?));
    all_in.min(least(clipped))
}

/// Y(t) from X(0) to X(t): the least of X(s) + f(t-s) for s from 0 to t.
pub fn next_departed(f: &[u64], admitted: &[u64]) -> u64 {
    let slot = admitted.len() - 1;
    least((0..=slot).map(|s| admitted[s] + f[slot - s]))
}

/// A, X and Y from slot 0 on.
#[derive(Clone, Debug, PartialEq, Eq)]
pub struct Totals {
    pub arrived: Vec<u64>,
    pub admitted: Vec<u64>,
    pub departed: Vec<u64>,
}

impl Totals {
    /// Those of slot 0.
    pub fn fresh() -> Totals {
        Totals {
            arrived: vec![0],
            admitted: vec![0],
            departed: vec![0],
        }
    }

    pub fn slots_taken(&self) -> usize {
        self.arrived.len() - 1
    }

    /// Theorem 5.1 over a trace, whatever the envelope; f reaches back to slot 0 and d beyond.
    pub fn over(f: &[u64], limits: Limits, arrivals: &[u64]) -> Totals {
        let mut totals = Totals::fresh();
        for &count in arrivals {
            totals.advance(f, limits, count);
        }
        totals
    }

    /// One more slot.
    pub fn advance(&mut self, f: &[u64], limits: Limits, arrivals: u64) -> Row {
        let admitted = next_admitted(f, limits, &self.admitted, arrivals);
        self.admitted.push(admitted);
        self.departed.push(next_departed(f, &self.admitted));
        self.arrived
            .push(self.arrived[self.slots_taken()] + arrivals);
        self.row(self.slots_taken())
    }

    /// The row of a slot taken: dropped is arrived less admitted, and held is X(t) - Y(t).
    pub fn row(&self, slot: usize) -> Row {
        let in_slot = |totals: &[u64]| totals[slot] - totals[slot - 1];
        let (arrived, admitted) = (in_slot(&self.arrived), in_slot(&self.admitted));
        Row {
            arrived,
            admitted,
            dropped: arrived - admitted,
            departed: in_slot(&self.departed),
            held: self.held(slot),
        }
    }

    /// X(t) - Y(t)
    pub fn held(&self, slot: usize) -> u64 {
        self.admitted[slot] - self.departed[slot]
    }
}

/// One slot's packets, and those held after it.
#[derive(Clone, Copy, Debug, PartialEq, Eq)]
pub struct Row {
    pub arrived: u64,
    pub admitted: u64,
    pub dropped: u64,
    pub departed: u64,
    pub held: u64,
}

/// A live regulator that keeps its whole history, where the real one keeps a bounded past.
#[derive(Clone, Debug, PartialEq, Eq)]
pub struct Regulator {
    table: Vec<u64>,
    limits: Limits,
    closure: Vec<u64>,
    totals: Totals,
}

impl Regulator {
    /// A fresh regulator, or the first refusal of the set-up.
    pub fn set_up(table: &[u64], delay: u64, buffer: u64) -> Result<Regulator, Refusal> {
        refusal::set_up(table, delay, buffer)?;
        Ok(Regulator::fresh(
            table,
            Limits::from_numbers(delay, buffer)?,
        ))
    }

    /// One for an accepted table and any limits, both none among them, which only files carry.
    pub(crate) fn fresh(table: &[u64], limits: Limits) -> Regulator {
        Regulator {
            table: table.to_vec(),
            limits,
            closure: vec![0],
            totals: Totals::fresh(),
        }
    }

    /// The slot's answer; a refused slot leaves the regulator as it was.
    pub fn slot(&mut self, arrivals: u64) -> Result<Row, Refusal> {
        refusal::slot(arrivals, self.slots_taken() as u64)?;
        self.reach(self.slots_taken() + 1);
        Ok(self.totals.advance(&self.closure, self.limits, arrivals))
    }

    pub fn slots_taken(&self) -> usize {
        self.totals.slots_taken()
    }

    pub fn totals(&self) -> &Totals {
        &self.totals
    }

    /// Works the closure out as far as a window back to slot 0 needs it.
    fn reach(&mut self, slot: usize) {
        let last = slot + self.limits.delay.unwrap_or(0);
        while self.closure.len() <= last {
            self.closure.push(closure::next(&self.table, &self.closure));
        }
    }
}
