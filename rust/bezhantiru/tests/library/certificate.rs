//! The certificate of our run, found as the reference finds it, on tables, limits and traces drawn at
//! random; it is accepted wherever every slot has a link, and always under the premise.

use std::sync::atomic::{AtomicUsize, Ordering};
use std::thread;

use bezhantiru::{NO_BUFFER, NO_DELAY};
use reference::permitted::premise;
use reference::regulator::Limits;
use tests_program::cases::{for_each_drawn, for_each_numbered, said, same, wide};
use tests_program::dice::Dice;
use tests_program::draw;

use crate::anyone::{Asked, PERMITTED};
use crate::beside_ours::ours;
use crate::certificates::{Claimed, certified, found, found_by_reference};
use crate::rivals::our_rows;

const STREAMS: usize = 40_000;
const LONG_STREAMS: usize = 12;

/// Our certificate, which is the reference's. The check of it is the reference's too, and finds nothing
/// where every slot has an admitted link. Each has one under the premise, and else where its deadline lies
/// in the trace.
fn check_found(ours: &Asked) -> Result<Claimed, String> {
    let lengths = [ours.arrivals.len(); 3];
    let run = found(ours, lengths);
    same("certificate", &run, &found_by_reference(ours, lengths))?;
    let claimed = Claimed {
        rows: ours.clone(),
        links: run.lists,
    };
    let judgement = claimed.check();
    same("judgement", judgement, claimed.by_reference())?;
    let marks = &claimed.links[1];
    let whole = marks.iter().all(|&mark| mark != 0);
    same("certified", judgement == PERMITTED, whole)?;
    same("linked", linked(ours, marks)?, true)?;
    Ok(claimed)
}

fn linked(ours: &Asked, marks: &[u32]) -> Result<bool, String> {
    let (delay, buffer) = ours.limits;
    let limits = said(Limits::from_numbers(delay.into(), buffer.into()))?;
    let due_in_trace = if premise(limits, &wide(&ours.arrivals)) {
        marks.len()
    } else {
        marks.len().saturating_sub(delay as usize)
    };
    Ok(marks[..due_in_trace].iter().all(|&mark| mark != 0))
}

/// A difference comes with the case.
fn check(ours: &Asked) -> Result<Claimed, String> {
    check_found(ours).map_err(|problem| format!("{ours:?}: {problem}"))
}

/// A trace with our rows; where it is to end quietly, after as many empty slots as the premise asks for.
fn drawn(dice: &mut Dice, quietly: bool) -> Result<Asked, String> {
    let mut drawn = our_rows(draw::any(dice))?;
    if quietly && drawn.limits.0 != NO_DELAY {
        let slots = drawn.arrivals.len() + drawn.limits.0 as usize;
        drawn.arrivals.resize(slots, 0);
        drawn = ours(&drawn)?;
    }
    Ok(drawn)
}

/// Found certificates of every mark and of none, and departed links from slot 0, from the slot itself and
/// from between, are met often.
#[test]
fn streams() {
    let marks: [AtomicUsize; 4] = Default::default();
    let departed: [AtomicUsize; 3] = Default::default();
    for_each_numbered(STREAMS, |number, dice| {
        let Claimed { links, .. } = check(&drawn(dice, number % 2 == 0)?)?;
        for &mark in &links[1] {
            marks[mark as usize].fetch_add(1, Ordering::Relaxed);
        }
        for (slot, &first) in (1..).zip(&links[2]) {
            let kind = usize::from(first > 0) + usize::from(first == slot);
            departed[kind].fetch_add(1, Ordering::Relaxed);
        }
        Ok(())
    });
    let (marks, departed) = (
        marks.map(AtomicUsize::into_inner),
        departed.map(AtomicUsize::into_inner),
    );
    println!("none and by mark: {marks:?}; from slot 0, between, itself: {departed:?}");
    let rarest = marks.iter().chain(&departed).min();
    assert!(rarest >= Some(&2_000), "{marks:?} {departed:?}");
}

#[test]
fn long_streams() {
    for_each_drawn(LONG_STREAMS, |dice| {
        check(&our_rows(draw::stream(dice, 1, 64, 4_000, 4_096))?).map(|_| ())
    });
}

/// Every trace of up to five slots with 0 to 3 arrivals in each.
#[test]
fn every_tiny_trace() {
    let limits = [(0, 1), (1, 0), (2, 3), (1, NO_BUFFER), (NO_DELAY, 2)];
    let tables: [&[u32]; 4] = [&[0, 1], &[0, 2, 3], &[0, 0, 1], &[0, 1, 1, 4]];
    for (table, limits) in tables.iter().flat_map(|table| limits.map(|d| (table, d))) {
        for trace in (0..=5).flat_map(reference::tiny::traces) {
            let rows = ours(&Asked {
                table: table.to_vec(),
                limits,
                arrivals: trace.iter().map(|&count| count as u32).collect(),
                admitted: Vec::new(),
                departed: Vec::new(),
            });
            rows.and_then(|rows| check(&rows))
                .unwrap_or_else(|problem| panic!("{problem}"));
        }
    }
}

fn with_our_rows(table: &[u32], limits: (u32, u32), arrivals: Vec<u32>) -> Asked {
    let rows = ours(&Asked {
        table: table.to_vec(),
        limits,
        arrivals,
        admitted: Vec::new(),
        departed: Vec::new(),
    });
    rows.unwrap_or_else(|problem| panic!("{problem}"))
}

fn links_of(ours: &Asked) -> [Vec<u32>; 3] {
    let claimed = check(ours).unwrap_or_else(|problem| panic!("{problem}"));
    claimed.links
}

/// Two packets, none, two packets, ..: one of the two is lost, and each slot's link starts in the slot
/// before.
#[test]
fn a_link_from_every_slot() {
    for (limits, mark) in [((0, NO_BUFFER), 2), ((NO_DELAY, 1), 3), ((0, 1), 2)] {
        let ours = with_our_rows(&[0, 1], limits, [2, 0].repeat(2_048));
        let [from, by, _] = links_of(&ours);
        assert_eq!(from, (0..4_096).collect::<Vec<u32>>());
        assert_eq!(by, [mark, 1].repeat(2_048));
    }
}

/// Amounts close to the largest that a link has, for each mark: 1,000,000 packets in each of 4,096
/// slots, none of them lost, then some by the delay limit, then some by the buffer.
#[test]
fn the_largest_amounts() {
    for (entry, limits, marks) in [
        (1_000_000, (64, 1_000_000), [1, 1]),
        (984_374, (64, NO_BUFFER), [2, 0]),
        (999_999, (NO_DELAY, 1_000_000), [3, 3]),
    ] {
        let ours = with_our_rows(&[0, entry], limits, vec![1_000_000; 4_096]);
        let [from, by, departed] = links_of(&ours);
        assert_eq!((from[4_031], by[4_031]), (0, marks[0]));
        assert_eq!((from[4_095], by[4_095]), (0, marks[1]));
        assert_eq!(departed[4_095], 0);
    }
}

/// Whatever a trace ends in, the reference's certified rows are certified, with the links that the
/// reference finds; under the premise they are ours.
#[test]
fn certified_rows_of_any_trace() {
    let not_ours = AtomicUsize::new(0);
    for_each_numbered(STREAMS, |number, dice| {
        let ours = drawn(dice, number % 4 == 0)?;
        let claimed = certified(&ours)?;
        let case = |problem| format!("{claimed:?}: {problem}");
        same("judgement", claimed.check(), PERMITTED).map_err(case)?;
        let rows = |asked: &Asked| (asked.admitted.clone(), asked.departed.clone());
        let is_ours = rows(&ours) == rows(&claimed.rows);
        let whole = found(&ours, [ours.arrivals.len(); 3]).lists[1]
            .iter()
            .all(|&mark| mark != 0);
        same("ours", is_ours, whole).map_err(case)?;
        not_ours.fetch_add(usize::from(!is_ours), Ordering::Relaxed);
        Ok(())
    });
    let not_ours = not_ours.into_inner();
    println!("{not_ours} of {STREAMS} not ours");
    assert!(not_ours > STREAMS / 20, "{not_ours}");
}

/// The stack that the header speaks of is enough; too small a one would end the whole test.
#[test]
fn the_header_s_stack() {
    let table: Vec<u32> = (0..=64).map(|window| 1_000 * window).collect();
    let ours = with_our_rows(&table, (64, 1_000_000), vec![2_000; 4_096]);
    let small = thread::Builder::new().stack_size(3 << 16);
    let claimed = small.spawn(move || {
        let links = found(&ours, [4_096; 3]).lists;
        Claimed { rows: ours, links }.check()
    });
    let judgement = claimed.expect("a thread").join().expect("an answer");
    assert_eq!((judgement.number, judgement.rule), (0, 6));
}
