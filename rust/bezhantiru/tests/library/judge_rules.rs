//! Each rule of the judge broken alone, and every two that can break together, in one slot or one
//! before the other: in the first slot, in the last, and in deadlines. Each is counted on every pair of
//! tiny traces, and the judgement is always the reference's.

use std::collections::BTreeMap;

use bezhantiru::boundary::Judgement;
use bezhantiru::{NO_BUFFER, NO_DELAY};
use reference::tiny::traces;

use crate::anyone::{Asked, PERMITTED};

/// U(t) does not fall, so that U(t-d) above V(t) and V(t) above U(t) do not meet in a slot.
const NEVER_TOGETHER: [u64; 2] = [2, 5];

fn narrow(trace: &[u64]) -> Vec<u32> {
    trace.iter().map(|&count| count as u32).collect()
}

/// Every pair of some traces under some set-ups. With up to two slots all traces are taken, with three
/// some.
fn for_each_tiny(mut work: impl FnMut(&Asked)) {
    let tables: [&[u32]; 5] = [&[0, 1], &[0, 3], &[0, 2, 2], &[0, 1, 3], &[0, 2, 2, 3]];
    let limits = [
        (0, 1),
        (1, 1),
        (1, 2),
        (2, 2),
        (1, NO_BUFFER),
        (NO_DELAY, 1),
    ];
    let shorter: Vec<Vec<u64>> = (1..=2).flat_map(traces).collect();
    let all = [&shorter[..], &[vec![2, 1, 0], vec![0, 3, 2], vec![3, 3, 3]]].concat();
    for (table, limits) in tables.iter().flat_map(|table| limits.map(|l| (table, l))) {
        for arrivals in &all {
            let slots = arrivals.len() as u32;
            for admitted in traces(slots) {
                for departed in traces(slots) {
                    work(&Asked {
                        table: table.to_vec(),
                        limits,
                        arrivals: narrow(arrivals),
                        admitted: narrow(&admitted),
                        departed: narrow(&departed),
                    });
                }
            }
        }
    }
}

/// Where a slot stands: the first, the last of several, and whether it is the deadline of a slot that
/// something was admitted by.
fn places(asked: &Asked, slot: usize) -> Vec<&'static str> {
    let due = slot.checked_sub(asked.limits.0 as usize);
    let is_due = due.is_some_and(|due| asked.admitted[..due].iter().any(|&count| count > 0));
    let places = [
        (slot == 1, "first"),
        (slot > 1 && slot == asked.arrivals.len(), "last"),
        (is_due, "deadline"),
    ];
    let there = places.into_iter().filter(|(there, _)| *there);
    there.map(|(_, place)| place).collect()
}

/// How often one rule alone was broken, two in one slot, and one before another.
#[derive(Default)]
struct Tally {
    alone: BTreeMap<(u64, &'static str), usize>,
    together: BTreeMap<(u64, u64), usize>,
    before: BTreeMap<(u64, u64), usize>,
}

impl Tally {
    fn add(&mut self, asked: &Asked) {
        let broken = asked.broken().expect("an accepted question");
        let rules = broken
            .iter()
            .map(|broken| (broken.slot, broken.rule.number()));
        match &rules.collect::<Vec<_>>()[..] {
            [(slot, rule)] => {
                for place in places(asked, *slot) {
                    *self.alone.entry((*rule, place)).or_default() += 1;
                }
            }
            [(slot, rule), (again, other)] if slot == again => {
                *self.together.entry((*rule, *other)).or_default() += 1;
            }
            [(_, rule), (_, other)] => {
                *self.before.entry((*rule, *other)).or_default() += 1;
            }
            _ => (),
        }
    }

    fn check(&self) {
        for rule in 1..=5 {
            for place in ["first", "last", "deadline"] {
                let count = self.alone.get(&(rule, place));
                assert!(count >= Some(&20), "rule {rule}, {place} slot: {count:?}");
            }
            for other in 1..=5 {
                let count = self.before.get(&(rule, other));
                assert!(count >= Some(&20), "rule {rule} before {other}: {count:?}");
                let count = self.together.get(&(rule, other));
                if [rule, other] == NEVER_TOGETHER {
                    assert_eq!(count, None);
                } else if rule < other {
                    assert!(count >= Some(&20), "rules {rule} and {other}: {count:?}");
                }
            }
        }
    }
}

#[test]
fn every_rule_alone_and_every_two() {
    let mut tally = Tally::default();
    for_each_tiny(|asked| {
        assert_eq!(asked.judge(), asked.by_reference(), "{asked:?}");
        tally.add(asked);
    });
    println!(
        "{:?}\n{:?}\n{:?}",
        tally.alone, tally.together, tally.before
    );
    tally.check();
}

fn asked(limits: (u32, u32), arrivals: &[u32], admitted: &[u32], departed: &[u32]) -> Asked {
    Asked {
        table: vec![0, 2, 3],
        limits,
        arrivals: arrivals.to_vec(),
        admitted: admitted.to_vec(),
        departed: departed.to_vec(),
    }
}

/// Rule, slot and window of each by hand, beside document 01's row and its rows with other limits.
#[test]
fn by_hand() {
    let row = |admitted: [u32; 4], departed: [u32; 4]| {
        let Judgement {
            rule, slot, window, ..
        } = asked((1, 4), &[5, 0, 4, 0], &admitted, &departed).judge();
        (rule, slot, window)
    };
    assert_eq!(row([3, 0, 3, 0], [2, 1, 2, 1]), (0, 0, 0));
    assert_eq!(row([6, 0, 3, 0], [2, 1, 2, 1]), (1, 1, 0));
    assert_eq!(row([3, 0, 3, 1], [2, 1, 2, 1]), (1, 4, 0));
    assert_eq!(row([1, 0, 3, 0], [2, 1, 2, 1]), (2, 1, 0));
    assert_eq!(row([3, 0, 3, 0], [2, 1, 2, 2]), (2, 4, 0));
    assert_eq!(row([3, 0, 3, 0], [3, 0, 2, 1]), (3, 1, 1));
    assert_eq!(row([4, 0, 3, 0], [2, 2, 2, 1]), (3, 2, 2));
    assert_eq!(row([3, 0, 4, 0], [2, 1, 2, 2]), (3, 4, 2));
    assert_eq!(row([5, 0, 3, 0], [2, 1, 2, 1]), (4, 1, 0));
    assert_eq!(row([4, 0, 4, 0], [1, 2, 2, 1]), (5, 2, 0));
    assert_eq!(row([3, 0, 3, 0], [2, 1, 1, 1]), (5, 4, 0));
    assert_eq!(row([4, 0, 3, 0], [2, 1, 2, 1]), (5, 2, 0));
}

/// A slot whose deadline lies beyond the trace has none; one slot longer, the trace has it.
#[test]
fn deadlines_at_the_end_of_the_trace() {
    for delay in [0, 1, 2, 3, 63, 64] {
        for slots in [delay, delay + 1, delay + 2] {
            let length = slots as usize;
            let (mut arrivals, nothing) = (vec![0; length], vec![0; length]);
            for slot in 1..=length {
                arrivals.fill(0);
                arrivals[slot - 1] = 1;
                let rows = asked((delay, NO_BUFFER), &arrivals, &arrivals, &nothing);
                let deadline = slot as u32 + delay;
                let wanted = match deadline {
                    _ if deadline > slots => PERMITTED,
                    _ => Judgement {
                        rule: 5,
                        slot: deadline,
                        ..PERMITTED
                    },
                };
                assert_eq!(rows.judge(), wanted, "delay {delay}, {slots} slots");
                assert_eq!(rows.by_reference(), wanted);
            }
        }
    }
}

/// The envelope's smallest window, from 1 to L: five packets in its first slot and five in its last,
/// where nine may go.
#[test]
fn windows_up_to_l() {
    for last in [1, 2, 3, 5, 63, 64] {
        for window in 1..=last {
            let mut table = vec![1_000_000; last + 1];
            table[..=window].fill(9);
            table[0] = 0;
            let slots = last + 2;
            let mut departed = vec![0; slots];
            departed[slots - window] += 5;
            departed[slots - 1] += 5;
            let rows = Asked {
                table: table.clone(),
                limits: (NO_DELAY, 1_000_000),
                arrivals: departed.clone(),
                admitted: departed.clone(),
                departed,
            };
            let wanted = Judgement {
                rule: 3,
                slot: slots as u32,
                window: window as u32,
                ..PERMITTED
            };
            assert_eq!(rows.judge(), wanted, "{last} {window}");
            assert_eq!(rows.by_reference(), wanted, "{last} {window}");
        }
    }
}
