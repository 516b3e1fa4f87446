//! Anyone's rows judged by the rules of permitted pairs, one after another. Document 01, "The lowest
//! loss curve", with the buffer's fill of document 02, 2.9.

use crate::permitted::totals;
use crate::refusal::{self, Refusal};
use crate::regulator::Limits;

/// The rules, by their number; of several that break in a slot the lowest is named.
#[derive(Clone, Copy, Debug, PartialEq, Eq)]
pub enum Rule {
    /// More is admitted in the slot than arrives.
    Arrivals = 1,
    /// V(t) is above U(t).
    Departures = 2,
    /// V(t) - V(t-k) is above the table's entry for window k.
    Envelope = 3,
    /// U(t) - V(t-1) is above q.
    Buffer = 4,
    /// U(t-d) is above V(t).
    Delay = 5,
}

impl Rule {
    pub const ALL: [Rule; 5] = [
        Rule::Arrivals,
        Rule::Departures,
        Rule::Envelope,
        Rule::Buffer,
        Rule::Delay,
    ];

    pub fn number(self) -> u64 {
        self as u64
    }
}

/// The rule that breaks first, and where.
#[derive(Clone, Copy, Debug, PartialEq, Eq)]
pub struct Broken {
    pub rule: Rule,
    pub slot: usize,
    /// The smallest that breaks the envelope; 0 for any other rule.
    pub window: usize,
}

/// What a pair is judged by, and its totals from slot 0 on.
struct Judge<'a> {
    table: &'a [u64],
    limits: Limits,
    arrivals: &'a [u64],
    admitted: &'a [u64],
    /// U and V
    totals: [Vec<u64>; 2],
}

/// The first slot in which a rule breaks and in it the first rule that does, or none where the rows
/// are permitted; or the first refusal of set-up, 10, 11, 8.
pub fn judge(
    table: &[u64],
    delay: u64,
    buffer: u64,
    arrivals: &[u64],
    admitted: &[u64],
    departed: &[u64],
) -> Result<Option<Broken>, Refusal> {
    let broken = all_broken(table, delay, buffer, arrivals, admitted, departed)?;
    Ok(broken.first().copied())
}

/// Every rule that breaks, slot by slot and in each from the lowest on.
pub fn all_broken(
    table: &[u64],
    delay: u64,
    buffer: u64,
    arrivals: &[u64],
    admitted: &[u64],
    departed: &[u64],
) -> Result<Vec<Broken>, Refusal> {
    let lengths = [admitted.len(), departed.len()];
    refusal::trace(table, delay, buffer, arrivals, lengths)?;
    let judge = Judge {
        table,
        limits: Limits::from_numbers(delay, buffer)?,
        arrivals,
        admitted,
        totals: [totals(admitted), totals(departed)],
    };
    let slots = 1..=arrivals.len();
    Ok(slots.flat_map(|slot| judge.broken_in(slot)).collect())
}

impl Judge<'_> {
    /// The rules that break in a slot.
    fn broken_in(&self, slot: usize) -> impl Iterator<Item = Broken> {
        Rule::ALL.into_iter().filter_map(move |rule| {
            let window = self.breaks(rule, slot)?;
            Some(Broken { rule, slot, window })
        })
    }

    /// The window of a rule that breaks in a slot, which is 0 for all but the envelope.
    fn breaks(&self, rule: Rule, slot: usize) -> Option<usize> {
        let [u, v] = &self.totals;
        let breaks = match rule {
            Rule::Arrivals => self.admitted[slot - 1] > self.arrivals[slot - 1],
            Rule::Departures => v[slot] > u[slot],
            Rule::Envelope => {
                let last = slot.min(self.table.len() - 1);
                return (1..=last).find(|&k| v[slot] - v[slot - k] > self.table[k]);
            }
            Rule::Buffer => {
                let most = self.limits.buffer.map(|buffer| v[slot - 1] + buffer);
                most.is_some_and(|most| u[slot] > most)
            }
            Rule::Delay => {
                let due = self.limits.delay.and_then(|delay| slot.checked_sub(delay));
                due.is_some_and(|due| u[due] > v[slot])
            }
        };
        breaks.then_some(0)
    }
}
