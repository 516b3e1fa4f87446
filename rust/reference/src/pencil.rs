//! The pencil version of the whole-trace run. Document 02, 2.14: "admitted totals are worked from
//! earlier departures, and departures from admitted totals".

use crate::refusal::{self, Refusal};
use crate::regulator::{Limits, clip};
use crate::trace::Lists;
use crate::{closure, least};

/// The three lists, or the first refusal of set-up, 24, 11, 8. `list_lengths` are the lengths of the
/// lent lists for admitted, dropped and departed packets.
pub fn run(
    table: &[u64],
    delay: u64,
    buffer: u64,
    arrivals: &[u64],
    list_lengths: [usize; 3],
) -> Result<Lists, Refusal> {
    refusal::pencil(table, delay, buffer, arrivals, list_lengths)?;
    let limits = Limits::from_numbers(delay, buffer)?;
    let last = arrivals.len() + limits.delay.unwrap_or(0);
    let sheet = Sheet {
        f: closure::by_recursion(table, last),
        limits,
        arrivals,
    };
    let slots = || 1..=arrivals.len();
    let admitted: Vec<u64> = slots()
        .map(|slot| sheet.admitted(slot) - sheet.admitted(slot - 1))
        .collect();
    let dropped = arrivals.iter().zip(&admitted);
    Ok(Lists {
        dropped: dropped
            .map(|(arrived, admitted)| arrived - admitted)
            .collect(),
        departed: slots()
            .map(|slot| sheet.departed(slot) - sheet.departed(slot - 1))
            .collect(),
        admitted,
    })
}

/// What the two totals are worked out from. Each asks for the other anew down to slot 0, so that the
/// work triples with every slot.
struct Sheet<'a> {
    f: Vec<u64>,
    limits: Limits,
    arrivals: &'a [u64],
}

impl Sheet<'_> {
    /// X(t): the least of X(t-1) plus the arrivals of slot t, and of all Y(s) + g(t-s) for s from 0 to
    /// t-1.
    fn admitted(&self, slot: usize) -> u64 {
        if slot == 0 {
            return 0;
        }
        let all_in = self.admitted(slot - 1) + self.arrivals[slot - 1];
        let clipped = (0..slot).filter_map(|s| {
            let clip = clip(&self.f, self.limits, slot - s)?;
            Some(self.departed(s) + clip)
        });
        all_in.min(least(clipped))
    }

    /// Y(t): the least of X(s) + f(t-s) for s from 0 to t.
    fn departed(&self, slot: usize) -> u64 {
        least((0..=slot).map(|s| self.admitted(s) + self.f[slot - s]))
    }
}
