//! Certificates: for every slot two links that show that nobody could have admitted or let go more by
//! it. A link's mark and amount are those of document 02, 2.8, with the buffer term of 2.9.

use crate::chain::{Mark, Trace};
use crate::judge::{self, Broken};
use crate::least;
use crate::permitted::totals;
use crate::refusal::{self, Refusal};
use crate::regulator::{Row, Totals, next_departed};
use crate::trace::Lists;

/// The links of slots 1, 2, ..: the admitted one's first slot and mark, and the departed one's first
/// slot.
#[derive(Clone, Debug, Default, PartialEq, Eq)]
pub struct Certificate {
    pub admitted_from: Vec<u64>,
    pub admitted_by: Vec<u64>,
    pub departed_from: Vec<u64>,
}

/// Why rows and links are not certified.
#[derive(Clone, Copy, Debug, PartialEq, Eq)]
pub enum Flaw {
    /// The rows are not permitted.
    Rule(Broken),
    /// The slot's admitted link does not hold.
    AdmittedLink(usize),
    /// The slot's departed link does not hold.
    DepartedLink(usize),
}

impl Flaw {
    /// The number of the rule, or 6 and 7 for the links; the slot; and the rule's window.
    pub fn numbers(self) -> [u64; 3] {
        match self {
            Flaw::Rule(broken) => [
                broken.rule.number(),
                broken.slot as u64,
                broken.window as u64,
            ],
            Flaw::AdmittedLink(slot) => [6, slot as u64, 0],
            Flaw::DepartedLink(slot) => [7, slot as u64, 0],
        }
    }
}

impl Trace {
    fn slots(&self) -> usize {
        self.totals.slots_taken()
    }

    /// The amount of an admitted link that may be used: one of the delay limit only where the deadline
    /// of its last slot lies in the trace.
    fn usable(&self, mark: Mark, first: usize, last: usize) -> Option<u64> {
        let due = last + self.limits.delay.unwrap_or(0);
        if mark == Mark::Delay && due > self.slots() {
            return None;
        }
        self.amount(mark, first, last)
    }

    /// The admitted links of a slot that may be used, with their amounts: the earliest first slot first,
    /// of each the lowest mark.
    fn usable_links(&self, slot: usize) -> impl Iterator<Item = (usize, Mark, u64)> {
        let marked = |first| Mark::ALL.into_iter().map(move |mark| (first, mark));
        let links = (0..slot).flat_map(marked);
        links.filter_map(move |(first, mark)| Some((first, mark, self.usable(mark, first, slot)?)))
    }

    /// Whether a slot's admitted link holds: its first slot is below the slot, its mark usable, and the
    /// amount and U at the first slot make U at the slot.
    fn admitted_holds(&self, first: u64, mark: u64, slot: usize) -> bool {
        let u = &self.totals.admitted;
        first < slot as u64
            && Mark::numbered(mark)
                .and_then(|mark| self.usable(mark, first as usize, slot))
                .is_some_and(|amount| u[slot] == u[first as usize] + amount)
    }

    /// Whether a slot's departed link holds: its first slot r is at most the slot t, and V(t) is
    /// U(r) + f(t-r).
    fn departed_holds(&self, first: u64, slot: usize) -> bool {
        let (u, v) = (&self.totals.admitted, &self.totals.departed);
        first <= slot as u64 && v[slot] == u[first as usize] + self.f[slot - first as usize]
    }

    /// The first of the usable admitted links that hold in a slot, by first slot and mark; 0 and 0 where
    /// none holds.
    fn found_admitted(&self, slot: usize) -> (u64, u64) {
        let u = &self.totals.admitted;
        self.usable_links(slot)
            .find(|&(first, _, amount)| u[slot] == u[first] + amount)
            .map_or((0, 0), |(first, mark, _)| (first as u64, mark.number()))
    }

    /// The smallest first slot of the departed links that hold in a slot. One does, because Y(t), and the
    /// certified V(t), is the least of these sums.
    fn found_departed(&self, slot: usize) -> Option<u64> {
        (0..=slot as u64).find(|&first| self.departed_holds(first, slot))
    }

    fn found(&self) -> Certificate {
        let mut found = Certificate::default();
        for slot in 1..=self.slots() {
            let (first, mark) = self.found_admitted(slot);
            found.admitted_from.push(first);
            found.admitted_by.push(mark);
            found.departed_from.extend(self.found_departed(slot));
        }
        found
    }

    /// The totals that are certified, whatever the trace ends in: U(t) is the least of U(s) plus a usable
    /// link's amount, V(t) of U(r) + f(t-r).
    fn certified(&self) -> Totals {
        let mut totals = Totals::fresh();
        totals.arrived.clone_from(&self.totals.arrived);
        for slot in 1..=self.slots() {
            let (links, u) = (self.usable_links(slot), &totals.admitted);
            let admitted = least(links.map(|(first, _, amount)| u[first] + amount));
            totals.admitted.push(admitted);
            let departed = next_departed(&self.f, &totals.admitted);
            totals.departed.push(departed);
        }
        totals
    }

    /// The first slot with a link that does not hold, the admitted one before the departed one.
    fn flaw(&self, links: &Certificate) -> Option<Flaw> {
        (1..=self.slots()).find_map(|slot| {
            let place = slot - 1;
            let (first, mark) = (links.admitted_from[place], links.admitted_by[place]);
            if !self.admitted_holds(first, mark, slot) {
                Some(Flaw::AdmittedLink(slot))
            } else if !self.departed_holds(links.departed_from[place], slot) {
                Some(Flaw::DepartedLink(slot))
            } else {
                None
            }
        })
    }
}

/// The certificate of our own run, which fills three lent lists, or the first refusal of set-up, 10,
/// 11, 8.
pub fn find(
    table: &[u64],
    delay: u64,
    buffer: u64,
    arrivals: &[u64],
    list_lengths: [usize; 3],
) -> Result<Certificate, Refusal> {
    refusal::trace(table, delay, buffer, arrivals, list_lengths)?;
    Ok(Trace::new(table, delay, buffer, arrivals)?.found())
}

/// The rows of an accepted set-up and trace that are certified, and their certificate.
pub fn certified(
    table: &[u64],
    delay: u64,
    buffer: u64,
    arrivals: &[u64],
) -> Result<(Lists, Certificate), Refusal> {
    let ours = Trace::new(table, delay, buffer, arrivals)?;
    let totals = ours.certified();
    let rows: Vec<Row> = (1..=arrivals.len()).map(|slot| totals.row(slot)).collect();
    let certified = Trace { totals, ..ours };
    Ok((Lists::of_rows(&rows), certified.found()))
}

/// Why anyone's rows, admitted and departed, and links are not certified, or none where they are; or
/// the first refusal of set-up, 10, 11, 8.
pub fn check(
    table: &[u64],
    delay: u64,
    buffer: u64,
    arrivals: &[u64],
    [admitted, departed]: [&[u64]; 2],
    links: &Certificate,
) -> Result<Option<Flaw>, Refusal> {
    let Certificate {
        admitted_from,
        admitted_by,
        departed_from,
    } = links;
    let lists = [
        admitted,
        departed,
        admitted_from,
        admitted_by,
        departed_from,
    ];
    refusal::trace(table, delay, buffer, arrivals, lists.map(<[u64]>::len))?;
    let broken = judge::judge(table, delay, buffer, arrivals, admitted, departed)?;
    if let Some(broken) = broken {
        return Ok(Some(Flaw::Rule(broken)));
    }
    let theirs = |_: &[u64], _| Totals {
        arrived: totals(arrivals),
        admitted: totals(admitted),
        departed: totals(departed),
    };
    let trace = Trace::with(table, delay, buffer, arrivals.len(), theirs)?;
    Ok(trace.flaw(links))
}
