//! Anyone's rows and links checked as the reference checks them: ours and certified ones with numbers
//! changed, lists exchanged and cut from other traces, other regulators' rows, and rubbish. What is
//! certified loses no more by any slot than any permitted rows.

use std::sync::atomic::{AtomicUsize, Ordering};

use bezhantiru::boundary::Judgement;
use reference::layout::StreamFile;
use reference::permitted::totals;
use tests_program::cases::{for_each_drawn, for_each_numbered, same, wide};
use tests_program::dice::Dice;
use tests_program::draw;

use crate::anyone::{Asked, PERMITTED};
use crate::certificates::{Claimed, Links, certified, found};
use crate::rivals::{a_rival_s, changed, our_rows, rubbish};

const DRAWN: usize = 50_000;
const LONG: usize = 8;
const DAMAGED: usize = 1_000;

/// The judgement, which is the reference's. Rows that it certifies are the only ones.
fn check(claimed: &Claimed, certified: &Claimed) -> Result<u32, String> {
    let found = claimed.check();
    let case = |problem| format!("{claimed:?}: {problem}");
    same("judgement", found, claimed.by_reference()).map_err(case)?;
    if found == PERMITTED {
        let rows =
            |claimed: &Claimed| [&claimed.rows.admitted, &claimed.rows.departed].map(Vec::clone);
        same("rows", rows(claimed), rows(certified)).map_err(case)?;
    }
    Ok(found.rule)
}

/// Of permitted rows neither total is ever above the certified one, whatever the trace ends in.
fn check_lowest(rows: &Asked, certified: &Asked) -> Result<(), String> {
    if rows.judge() != PERMITTED {
        return Ok(());
    }
    for (theirs, most) in [
        (&rows.admitted, &certified.admitted),
        (&rows.departed, &certified.departed),
    ] {
        let (theirs, most) = (totals(&wide(theirs)), totals(&wide(most)));
        if theirs.iter().zip(&most).any(|(theirs, most)| theirs > most) {
            return Err(format!("{rows:?}: above the certified {certified:?}"));
        }
    }
    Ok(())
}

/// A number that is told elsewhere in the case, near this one or far from it.
fn another(number: u32, slots: u32, dice: &mut Dice) -> u32 {
    let some = dice.below(slots + 2);
    let near = dice.pick([number.wrapping_sub(1), number.wrapping_add(1)]);
    let far = dice.pick([0, 1, 2, 3, 4, slots, slots + 1, 1 << 31, u32::MAX]);
    dice.pick([some, some, near, near, far])
}

/// Links with one or two numbers changed; with a list moved by a slot, or exchanged for another of the
/// five.
fn bent(claimed: &Claimed, dice: &mut Dice) -> Claimed {
    let (mut bent, slots) = (claimed.clone(), claimed.rows.arrivals.len());
    if slots == 0 {
        return bent;
    }
    match dice.below(8) {
        0 => bent.links[dice.place(3)].rotate_right(1),
        1 => {
            let (one, other) = (dice.place(3), dice.place(3));
            bent.links.swap(one, other);
        }
        2 => {
            let rows = dice.pick([true, false]);
            bent.links[dice.place(3)].clone_from(if rows {
                &bent.rows.admitted
            } else {
                &bent.rows.departed
            });
        }
        3 => std::mem::swap(&mut bent.rows.admitted, &mut bent.rows.departed),
        _ => {
            for _ in 0..dice.pick([1, 1, 2]) {
                let number = &mut bent.links[dice.place(3)][dice.place(slots)];
                *number = another(*number, slots as u32, dice);
            }
        }
    }
    bent
}

/// A stream's certified rows and links, or our own, which may lack some; some of it bent.
fn drawn(number: usize, file: StreamFile, dice: &mut Dice) -> Result<[Claimed; 2], String> {
    let ours = our_rows(file)?;
    let certified = certified(&ours)?;
    let with_our_links = |rows: Asked| Claimed {
        links: found(&rows, [rows.arrivals.len(); 3]).lists,
        rows,
    };
    let claimed = match number % 8 {
        0 => with_our_links(ours),
        1 => bent(&with_our_links(ours), dice),
        2 => Claimed {
            rows: a_rival_s(&ours, dice)?,
            ..certified.clone()
        },
        3 => Claimed {
            rows: changed(&certified.rows, dice),
            ..certified.clone()
        },
        4 => Claimed {
            rows: rubbish(&ours, dice),
            ..certified.clone()
        },
        _ => bent(&certified, dice),
    };
    Ok([claimed, certified])
}

#[test]
fn drawn_rows_and_links() {
    let verdicts: [AtomicUsize; 8] = Default::default();
    for_each_numbered(DRAWN, |number, dice| {
        let file = draw::any(dice);
        let [claimed, certified] = drawn(number, file, dice)?;
        let rule = check(&claimed, &certified)?;
        check_lowest(&claimed.rows, &certified.rows)?;
        verdicts[rule as usize].fetch_add(1, Ordering::Relaxed);
        Ok(())
    });
    let verdicts = verdicts.map(AtomicUsize::into_inner);
    println!("certified, by rule and by link: {verdicts:?}");
    assert!(verdicts.iter().all(|&count| count >= 200), "{verdicts:?}");
}

#[test]
fn long_rows_and_links() {
    for_each_numbered(LONG, |number, dice| {
        let file = draw::stream(dice, 1, 64, 4_000, 4_096);
        let [claimed, certified] = drawn(number, file, dice)?;
        check(&certified, &certified)?;
        check(&claimed, &certified).map(|_| ())
    });
}

/// Each number of certified links in turn becomes others. Where the link does not hold any more, it is
/// named with its slot.
fn check_damaged(certified: &Claimed) -> Result<(), String> {
    let slots = certified.rows.arrivals.len() as u32;
    for (list, place) in (0..3).flat_map(|list| (0..slots as usize).map(move |p| (list, p))) {
        let number = certified.links[list][place];
        let near = [number.wrapping_sub(1), number.wrapping_add(1)];
        let far = [0, 1, 2, 3, 4, slots, slots + 1, 1 << 31, u32::MAX];
        for other in near.into_iter().chain(far) {
            let mut damaged = certified.clone();
            damaged.links[list][place] = other;
            let found = damaged.check();
            let case = |problem| format!("{damaged:?}: {problem}");
            same("judgement", found, damaged.by_reference()).map_err(case)?;
            let named = Judgement {
                rule: if list == 2 { 7 } else { 6 },
                slot: place as u32 + 1,
                ..PERMITTED
            };
            same("named", found == PERMITTED || found == named, true).map_err(case)?;
            let last = if list == 2 { place + 1 } else { place };
            if list != 1 && other > last as u32 || list == 1 && !(1..=3).contains(&other) {
                same("judgement", found, named).map_err(case)?;
            }
        }
    }
    Ok(())
}

#[test]
fn damaged_links() {
    for_each_drawn(DAMAGED, |dice| {
        let ours = our_rows(draw::stream(dice, 1, 8, 0, 9))?;
        let certified = certified(&ours)?;
        same("certified", certified.check(), PERMITTED)?;
        check_damaged(&certified)
    });
}

/// Two links that fail, in one slot and one before the other: the first slot counts, and in it 6 before 7.
/// A rule that breaks in the last slot comes before both.
#[test]
fn every_two_flaws() {
    for_each_drawn(DAMAGED, |dice| {
        let file = draw::stream(dice, 1, 6, 2, 9);
        let certified = certified(&our_rows(file)?)?;
        let slots = certified.rows.arrivals.len();
        let (first, last) = (dice.place(slots - 1), slots - 1);
        for (link, other) in [(6, 6), (6, 7), (7, 6), (7, 7)] {
            for (place, rule) in [(first, link.min(other)), (last, link)] {
                let mut claimed = certified.clone();
                spoil(&mut claimed.links, link, first);
                spoil(&mut claimed.links, other, place);
                let wanted = Judgement {
                    rule,
                    slot: first as u32 + 1,
                    ..PERMITTED
                };
                let case = |problem| format!("{claimed:?}: {problem}");
                same("judgement", claimed.check(), wanted).map_err(case)?;
                same("by reference", claimed.by_reference(), wanted).map_err(case)?;
                let mut broken = claimed.clone();
                broken.rows.admitted[last] = broken.rows.arrivals[last] + 1;
                let wanted = Judgement {
                    rule: 1,
                    slot: slots as u32,
                    ..PERMITTED
                };
                let case = |problem| format!("{broken:?}: {problem}");
                same("judgement", broken.check(), wanted).map_err(case)?;
                same("by reference", broken.by_reference(), wanted).map_err(case)?;
            }
        }
        Ok(())
    });
}

/// A link that holds under no trace: from beyond the slot.
fn spoil(links: &mut Links, rule: u32, place: usize) {
    let list = if rule == 7 { 2 } else { 0 };
    links[list][place] = place as u32 + 2;
}
