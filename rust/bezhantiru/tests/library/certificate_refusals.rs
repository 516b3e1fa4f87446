//! What both functions of certificates refuse, at every limit and one beyond, and the order: set-up, 10,
//! 11, 8. Rows and links are any numbers, and no number of theirs is refused.

use crate::anyone::{Asked, refused};
use crate::certificates::{Claimed, found, found_by_reference};
use crate::faults::{Fault, SetUp, for_each_choice, for_each_set_up};
use crate::judged::{COUNTS, LENGTHS, first};
use crate::lent;

/// Nothing of it is refused, and every link holds.
fn accepted() -> Claimed {
    Claimed {
        rows: Asked {
            table: vec![0, 2, 3, 5],
            limits: (1, 9),
            arrivals: vec![5, 0, 4, 0],
            admitted: vec![3, 0, 3, 0],
            departed: vec![2, 1, 2, 1],
        },
        links: [vec![0, 1, 0, 3], vec![2, 1, 2, 1], vec![0; 4]],
    }
}

/// The check's number, as the reference has it; refused, it names no rule.
fn checked(claimed: &Claimed, number: u32) {
    let judgement = claimed.check();
    assert_eq!(judgement, claimed.by_reference(), "{claimed:?}");
    assert_eq!(judgement.number, number, "{claimed:?}");
    if number != 0 {
        assert_eq!(judgement, refused(number), "{claimed:?}");
    }
}

/// The number over lists of the links' lengths, as the reference has it; refused, every list is as it was.
fn certified(claimed: &Claimed, number: u32) {
    let lengths = claimed.links.each_ref().map(Vec::len);
    let run = found(&claimed.rows, lengths);
    assert_eq!(
        run,
        found_by_reference(&claimed.rows, lengths),
        "{claimed:?}"
    );
    let refusal = run.outcome.err();
    assert_eq!(refusal.map_or(0, |refusal| refusal.number()), number);
    if let Some(refusal) = refusal {
        assert_eq!(run, lent::refused(refusal, lengths), "{claimed:?}");
    }
}

fn both(claimed: &Claimed, number: u32) {
    checked(claimed, number);
    certified(claimed, number);
}

/// The same for another trace, with lists of its length.
fn with_arrivals(mut claimed: Claimed, arrivals: Vec<u32>) -> Claimed {
    for list in lists(&mut claimed) {
        list.resize(arrivals.len(), u32::MAX);
    }
    claimed.rows.arrivals = arrivals;
    claimed
}

/// The five lists, the rows' first.
fn lists(claimed: &mut Claimed) -> [&mut Vec<u32>; 5] {
    let Claimed { rows, links } = claimed;
    let [from, by, gone] = links;
    [&mut rows.admitted, &mut rows.departed, from, by, gone]
}

impl SetUp for Claimed {
    fn table(&mut self) -> &mut Vec<u32> {
        &mut self.rows.table
    }

    fn limits(&mut self) -> &mut (u32, u32) {
        &mut self.rows.limits
    }
}

#[test]
fn any_faults_get_the_first_number() {
    let longer: fn(&mut Claimed) = |claimed| claimed.links[0].push(0);
    let shorter: fn(&mut Claimed) = |claimed| claimed.links[2].truncate(3);
    let none: fn(&mut Claimed) = |claimed| claimed.links[1].clear();
    for other_length in [longer, shorter, none] {
        let faults: [Fault<Claimed>; 3] = [
            (10, |claimed| {
                *claimed = with_arrivals(claimed.clone(), vec![1; 4_097])
            }),
            (11, other_length),
            (8, |claimed| claimed.rows.arrivals[3] = 1_000_001),
        ];
        let faults = [&Claimed::faults()[..], &faults].concat();
        for_each_choice(&accepted(), &faults, both);
    }
}

#[test]
fn set_ups() {
    for_each_set_up(&accepted(), |claimed, number| {
        both(&claimed, number);
        let long = with_arrivals(claimed.clone(), vec![1; 4_097]);
        both(&long, first([number, 10]));
        let many = with_arrivals(claimed, vec![u32::MAX; 3]);
        both(&many, first([number, 8]));
    });
}

/// Each list alone of another length, and all of them.
#[test]
fn slots_and_lists() {
    for (slots, by_slots) in LENGTHS {
        let right = with_arrivals(accepted(), vec![1; slots]);
        both(&right, by_slots);
        for length in [0, 1, 4, 4_095, 4_096, 4_097] {
            let by_length = if length == slots { 0 } else { 11 };
            let number = first([by_slots, by_length]);
            for list in 0..5 {
                let mut other = right.clone();
                lists(&mut other)[list].resize(length, 7);
                checked(&other, number);
                // The rows are not lent to the function that finds.
                certified(&other, if list < 2 { by_slots } else { number });
            }
            let mut all = right.clone();
            for list in lists(&mut all) {
                list.resize(length, 7);
            }
            both(&all, number);
        }
    }
}

/// 8 is for the arrivals of every slot, and for them alone.
#[test]
fn counts() {
    for (count, number) in COUNTS {
        for slots in [1, 4, 4_096] {
            for place in [0, slots / 2, slots - 1] {
                let claimed = with_arrivals(accepted(), vec![1; slots]);
                let mut arrivals = claimed.clone();
                arrivals.rows.arrivals[place] = count;
                both(&arrivals, number);
                for list in 0..5 {
                    let mut other = claimed.clone();
                    lists(&mut other)[list][place] = count;
                    checked(&other, 0);
                }
            }
        }
    }
}
