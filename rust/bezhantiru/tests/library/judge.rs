//! Anyone's rows judged as the reference judges them: ours, ours with one number changed, those of
//! other regulators, and rubbish. No permitted ones lose less than ours.

use std::sync::atomic::{AtomicUsize, Ordering};

use bezhantiru::NO_BUFFER;
use tests_program::cases::{for_each_drawn, for_each_numbered, same};
use tests_program::draw;

use crate::anyone::{Asked, PERMITTED};
use crate::beside_ours::check_lowest;
use crate::rivals::{a_rival_s, changed, our_rows, rubbish};

const DRAWN: usize = 80_000;
const CHANGED: usize = 4_000;
const LONG: usize = 16;

/// The judgement, which is the reference's. Permitted rows are set beside ours.
fn check(asked: &Asked) -> Result<u32, String> {
    let found = asked.judge();
    same("judgement", found, asked.by_reference())
        .map_err(|problem| format!("{asked:?}: {problem}"))?;
    if found == PERMITTED {
        check_lowest(asked)?;
    }
    Ok(found.rule)
}

#[test]
fn drawn_rows() {
    let verdicts: [AtomicUsize; 6] = Default::default();
    for_each_numbered(DRAWN, |number, dice| {
        let ours = our_rows(draw::any(dice))?;
        let rows = match number % 4 {
            0 => a_rival_s(&ours, dice)?,
            1 => rubbish(&ours, dice),
            _ => changed(&ours, dice),
        };
        same("ours", ours.judge(), PERMITTED).map_err(|problem| format!("{ours:?}: {problem}"))?;
        let rule = check(&rows)?;
        verdicts[rule as usize].fetch_add(1, Ordering::Relaxed);
        Ok(())
    });
    let verdicts = verdicts.map(AtomicUsize::into_inner);
    println!("permitted and by rule: {verdicts:?}");
    assert!(verdicts.iter().all(|&count| count >= 500), "{verdicts:?}");
}

#[test]
fn long_rows() {
    for_each_numbered(LONG, |number, dice| {
        let ours = our_rows(draw::stream(dice, 1, 64, 4_000, 4_096))?;
        check(&ours)?;
        let rows = match number % 2 {
            0 => a_rival_s(&ours, dice)?,
            _ => changed(&ours, dice),
        };
        check(&rows).map(|_| ())
    });
}

/// Each number of ours in turn becomes some others.
#[test]
fn ours_with_one_number_changed() {
    for_each_drawn(CHANGED, |dice| {
        let ours = our_rows(draw::stream(dice, 1, 6, 0, 9))?;
        for slot in 0..ours.arrivals.len() {
            let (admitted, departed) = (ours.admitted[slot], ours.departed[slot]);
            for number in [admitted.wrapping_sub(1), admitted + 1, u32::MAX, 0] {
                let mut rows = ours.clone();
                rows.admitted[slot] = number;
                check(&rows)?;
            }
            for number in [departed.wrapping_sub(1), departed + 1, u32::MAX, 0] {
                let mut rows = ours.clone();
                rows.departed[slot] = number;
                check(&rows)?;
            }
        }
        Ok(())
    });
}

/// Totals that 32 bits would not hold: 1,000,000 packets in each of 4,096 slots pass at once, and then
/// a slot lets go as many more as bring the total back to where it was, were it counted in 32 bits.
#[test]
fn sums_of_64_bits() {
    let slots = 4_096;
    let asked = Asked {
        table: vec![0, 1_000_000],
        limits: (0, NO_BUFFER),
        arrivals: vec![1_000_000; slots],
        admitted: vec![1_000_000; slots],
        departed: vec![1_000_000; slots],
    };
    assert_eq!(asked.judge(), PERMITTED);
    for slot in [2, 2_048, 4_096] {
        let before = 1_000_000 * (slot as u64 - 1);
        for short in [0, 1, 1_000_000, 2_000_000] {
            let wrapping = (1 << 32) - before + short;
            let Ok(wrapping) = u32::try_from(wrapping) else {
                continue;
            };
            let mut rows = asked.clone();
            rows.departed[slot - 1] = wrapping;
            let rule = check(&rows).unwrap_or_else(|problem| panic!("{problem}"));
            assert_eq!((rule, rows.judge().slot), (2, slot as u32));
            let mut rows = asked.clone();
            rows.admitted[slot - 1] = wrapping;
            let rule = check(&rows).unwrap_or_else(|problem| panic!("{problem}"));
            assert_eq!((rule, rows.judge().slot), (1, slot as u32));
        }
    }
    let mut all = asked;
    all.admitted.fill(u32::MAX);
    all.departed.fill(u32::MAX);
    assert_eq!(check(&all), Ok(1));
}
