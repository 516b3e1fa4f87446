//! Every tiny trace under many set-ups: each link worked a second way, and all permitted pairs.

use std::ops::RangeInclusive;

use reference::certificate::{Certificate, certified};
use reference::closure::{by_compositions, by_recursion};
use reference::layout::{NO_BUFFER, NO_DELAY};
use reference::permitted::{Pair, Terms, premise, totals};
use reference::regulator::Limits;
use reference::tiny::{TABLES, traces};

use super::Case;

const NO_DELAY_LIMIT: u64 = NO_DELAY as u64;
const NO_BUFFER_LIMIT: u64 = NO_BUFFER as u64;
const LIMITS: [(u64, u64); 8] = [
    (0, 9),
    (1, 0),
    (1, 3),
    (2, 1),
    (1, NO_BUFFER_LIMIT),
    (3, NO_BUFFER_LIMIT),
    (NO_DELAY_LIMIT, 0),
    (NO_DELAY_LIMIT, 2),
];

fn cases(slots: RangeInclusive<u32>) -> impl Iterator<Item = Case> {
    let set_ups = TABLES
        .into_iter()
        .flat_map(|table| LIMITS.map(|limits| (table, limits)));
    set_ups.flat_map(move |(table, limits)| {
        let arrivals = slots.clone().flat_map(traces);
        arrivals.map(move |arrivals| Case::new(table, limits, &arrivals))
    })
}

/// The counts of each slot, by which the totals rise.
fn counts(totals: &[u64]) -> Vec<u64> {
    totals.windows(2).map(|both| both[1] - both[0]).collect()
}

/// A pair's links, each amount written out from the counts and from f, which is worked by trying every
/// way to fill a window.
struct Links<'a> {
    case: &'a Case,
    f: Vec<u64>,
    pair: Pair,
}

impl<'a> Links<'a> {
    fn of(case: &'a Case, pair: Pair) -> Links<'a> {
        let last = case.slots() + case.limits().delay.unwrap_or(0);
        let f = (0..=last).map(|window| by_compositions(case.table, window));
        Links {
            case,
            f: f.collect(),
            pair,
        }
    }

    /// Every admitted link that holds in a slot, by first slot and mark.
    fn admitted(&self, slot: usize) -> Vec<(u64, u64)> {
        let (f, u) = (&self.f, &self.pair.admitted);
        let Limits { delay, buffer, .. } = self.case.limits();
        let mut holding = Vec::new();
        for first in 0..slot {
            let mut amounts = vec![(1, self.case.arrivals[first..slot].iter().sum())];
            if let Some(delay) = delay.filter(|delay| slot + delay <= self.case.slots()) {
                amounts.push((2, f[slot + delay - first]));
            }
            if let Some(buffer) = buffer {
                amounts.push((3, f[slot - 1 - first] + buffer));
            }
            amounts.retain(|(_, amount)| u[slot] == u[first] + amount);
            holding.extend(amounts.iter().map(|&(mark, _)| (first as u64, mark)));
        }
        holding
    }

    /// Every departed link that holds in a slot.
    fn departed(&self, slot: usize) -> Vec<u64> {
        let Pair { admitted, departed } = &self.pair;
        let holds = |&first: &usize| departed[slot] == admitted[first] + self.f[slot - first];
        let holding = (0..=slot).filter(holds);
        holding.map(|first| first as u64).collect()
    }

    /// Whether both hold in every slot, for some links.
    fn are_there(&self) -> bool {
        let mut slots = 1..=self.case.slots();
        slots.all(|slot| !self.admitted(slot).is_empty() && !self.departed(slot).is_empty())
    }

    /// Whether these are all among them.
    fn have(&self, links: &Certificate) -> bool {
        (1..=self.case.slots()).all(|slot| {
            let place = slot - 1;
            let link = (links.admitted_from[place], links.admitted_by[place]);
            self.admitted(slot).contains(&link)
                && self.departed(slot).contains(&links.departed_from[place])
        })
    }
}

/// The permitted pairs of a case are searched by these.
fn searched<T>(case: &Case, search: impl FnOnce(Terms<'_, Vec<u64>>) -> T) -> T {
    search(Terms {
        f: &by_recursion(case.table, case.slots()),
        limits: case.limits(),
        arrived: &totals(&case.arrivals),
    })
}

/// What is found is the first of all links that hold. They hold in every slot under the premise, and else
/// in those whose deadline lies in the trace.
#[test]
fn the_found_links_are_the_first_that_hold() {
    let (mut linked, mut without) = (0, 0);
    for case in cases(0..=4) {
        let (links, found) = (Links::of(&case, case.ours()), case.found());
        let quiet = premise(case.limits(), &case.arrivals);
        for slot in 1..=case.slots() {
            let place = slot - 1;
            let first = links.admitted(slot).first().copied();
            let link = (found.admitted_from[place], found.admitted_by[place]);
            assert_eq!(link, first.unwrap_or((0, 0)), "{case:?} slot {slot}");
            let due = slot + case.limits().delay.unwrap_or(0);
            let to_be_there = quiet || due <= case.slots();
            assert!(first.is_some() || !to_be_there, "{case:?} slot {slot}");
            linked += usize::from(first.is_some());
            without += usize::from(first.is_none());
            let smallest = links.departed(slot).first().copied();
            assert_eq!(Some(found.departed_from[place]), smallest, "{case:?}");
        }
    }
    assert!(linked > 20_000 && without > 1_000, "{linked} {without}");
}

/// Our rows, and their found certificate with any number of it exchanged for another, are accepted exactly
/// where all links are among those that hold; the found one is so under the premise.
#[test]
fn accepted_exactly_where_every_link_holds() {
    let (mut accepted, mut refused) = (0, 0);
    for case in cases(0..=3) {
        let (links, found) = (Links::of(&case, case.ours()), case.found());
        let rows = [&links.pair.admitted, &links.pair.departed].map(|totals| counts(totals));
        let rows = rows.each_ref().map(|counts| &counts[..]);
        let flawless = case.flaw(rows, &found).is_none();
        assert_eq!(flawless, links.have(&found), "{case:?}");
        assert!(flawless || !premise(case.limits(), &case.arrivals));
        for (place, number) in (0..case.slots()).flat_map(|place| (0..=4).map(move |n| (place, n)))
        {
            let mut others = [found.clone(), found.clone(), found.clone()];
            others[0].admitted_from[place] = number;
            others[1].admitted_by[place] = number;
            others[2].departed_from[place] = number;
            for other in others {
                let flawless = case.flaw(rows, &other).is_none();
                assert_eq!(flawless, links.have(&other), "{case:?} {other:?}");
                accepted += usize::from(flawless);
                refused += usize::from(!flawless);
            }
        }
    }
    assert!(accepted > 5_000 && refused > 5_000, "{accepted} {refused}");
}

/// Whatever the trace ends in: of all permitted pairs the one that is greatest in every slot has links that
/// hold in each, and no other has. Under the premise it is ours.
#[test]
fn the_certified_pair_is_the_greatest() {
    let mut not_ours = 0;
    for case in cases(0..=3) {
        let (pairs, greatest) = searched(&case, |terms| (terms.pairs(), terms.greatest()));
        for pair in pairs {
            let is_greatest = pair == greatest;
            let links = Links::of(&case, pair);
            assert_eq!(links.are_there(), is_greatest, "{case:?} {:?}", links.pair);
        }
        let (delay, buffer) = case.limits;
        let certified = certified(case.table, delay, buffer, &case.arrivals);
        let (rows, links) = certified.expect("an accepted question");
        let totals = [&rows.admitted, &rows.departed].map(|counts| totals(counts));
        let pair = [greatest.admitted.clone(), greatest.departed.clone()];
        assert_eq!(totals, pair, "{case:?}");
        assert_eq!(case.flaw([&rows.admitted, &rows.departed], &links), None);
        let is_ours = greatest == case.ours();
        assert!(
            is_ours || !premise(case.limits(), &case.arrivals),
            "{case:?}"
        );
        not_ours += usize::from(!is_ours);
    }
    assert!(not_ours > 100, "{not_ours}");
}

/// A slot from which admitted links lead back to slot 0 through slots that all have one is proved: nobody
/// has admitted more by it, whatever the trace ends in. Some slots with a link are not.
#[test]
fn what_links_back_to_slot_0_prove() {
    let (mut proved, mut not_proved) = (0, 0);
    for case in cases(0..=3) {
        let greatest = searched(&case, |terms| terms.greatest());
        let (ours, found) = (case.ours(), case.found());
        let mut leads = vec![true];
        for slot in 1..=case.slots() {
            let has_one = found.admitted_by[slot - 1] != 0;
            leads.push(has_one && leads[found.admitted_from[slot - 1] as usize]);
            let lowest = ours.admitted[slot] == greatest.admitted[slot];
            assert!(!leads[slot] || lowest, "{case:?} slot {slot}");
            proved += usize::from(leads[slot]);
            not_proved += usize::from(has_one && !leads[slot] && !lowest);
        }
    }
    assert!(proved > 5_000 && not_proved > 10, "{proved} {not_proved}");
}
