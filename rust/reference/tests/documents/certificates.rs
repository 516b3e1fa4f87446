//! Certificates by hand, and on every tiny trace beside all permitted pairs.

mod by_hand;
mod tiny;

use reference::certificate::{Certificate, Flaw, check, find};
use reference::chain::Trace;
use reference::permitted::Pair;
use reference::regulator::Limits;

/// A trace under a set-up that is accepted.
#[derive(Clone, Debug)]
struct Case {
    table: &'static [u64],
    limits: (u64, u64),
    arrivals: Vec<u64>,
}

impl Case {
    fn new(table: &'static [u64], limits: (u64, u64), arrivals: &[u64]) -> Case {
        Case {
            table,
            limits,
            arrivals: arrivals.to_vec(),
        }
    }

    fn slots(&self) -> usize {
        self.arrivals.len()
    }

    fn found(&self) -> Certificate {
        let (delay, buffer) = self.limits;
        let lengths = [self.slots(); 3];
        find(self.table, delay, buffer, &self.arrivals, lengths).expect("an accepted question")
    }

    fn flaw(&self, rows: [&[u64]; 2], links: &Certificate) -> Option<[u64; 3]> {
        let (delay, buffer) = self.limits;
        let flaw = check(self.table, delay, buffer, &self.arrivals, rows, links);
        flaw.expect("an accepted question").map(Flaw::numbers)
    }

    fn limits(&self) -> Limits {
        Limits::from_numbers(self.limits.0, self.limits.1).expect("accepted limits")
    }

    /// Our totals.
    fn ours(&self) -> Pair {
        let (delay, buffer) = self.limits;
        let trace = Trace::new(self.table, delay, buffer, &self.arrivals).expect("a trace");
        Pair {
            admitted: trace.totals.admitted,
            departed: trace.totals.departed,
        }
    }
}
