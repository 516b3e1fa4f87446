//! Document 02, 2.8: the checker on anyone's chains, sound ones of any links, damaged ones and
//! rubbish, beside the reference. No chain that it accepts is below what is admitted.

use std::sync::atomic::{AtomicUsize, Ordering};

use bezhantiru::boundary::chain::ChainVerdict;
use bezhantiru::{NO_BUFFER, NO_DELAY, Regulator};
use reference::closure;
use reference::layout::StreamFile;
use tests_program::cases::{for_each_drawn, same, wide};
use tests_program::dice::Dice;
use tests_program::draw;

use crate::chains::{Asked, Lists, rubbish};

const CHAINS: usize = 30_000;
const DAMAGED: usize = 15_000;
const ANYONE_S: usize = 60_000;
const LONG_CHAINS: usize = 12;

const SOUND: ChainVerdict = ChainVerdict {
    number: 0,
    sound: 1,
};

/// What the amounts of an accepted trace are made of, and X at the slot asked for.
struct Totals {
    f: Vec<u64>,
    arrived: Vec<u64>,
    admitted: u64,
}

impl Totals {
    fn of(asked: &Asked) -> Totals {
        let (delay, buffer) = asked.limits;
        let live = Regulator::set_up(&asked.table, delay, buffer);
        let mut live = live.expect("an accepted set-up");
        let (mut arrived, mut admitted) = (vec![0], 0);
        for (slot, &count) in (1..).zip(&asked.arrivals) {
            let record = live.slot(count.into()).expect("an accepted slot");
            arrived.push(arrived[arrived.len() - 1] + u64::from(count));
            if slot <= asked.slot {
                admitted += record.admitted;
            }
        }
        Totals {
            f: closure::by_recursion(&wide(&asked.table), asked.arrivals.len() + 64),
            arrived,
            admitted,
        }
    }

    /// What a link of this mark has to amount to.
    fn amount(&self, limits: (u32, u32), mark: u32, first: u32, last: u32) -> u64 {
        let window = (last - first) as usize;
        match mark {
            1 => self.arrived[last as usize] - self.arrived[first as usize],
            2 => self.f[window + limits.0 as usize],
            _ => self.f[window - 1] + u64::from(limits.1),
        }
    }
}

fn limits_allow((delay, buffer): (u32, u32), mark: u32) -> bool {
    match mark {
        1 => true,
        2 => delay != NO_DELAY,
        3 => buffer != NO_BUFFER,
        _ => false,
    }
}

fn any_mark(dice: &mut Dice, limits: (u32, u32)) -> u32 {
    let mark = dice.pick([1, 2, 3]);
    if limits_allow(limits, mark) { mark } else { 1 }
}

fn write(lists: &mut Lists, place: usize, link: [u32; 3]) {
    for (list, number) in lists.iter_mut().zip(link) {
        list[place] = number;
    }
}

/// A sound chain to the slot asked for, of any links, before rubbish; and its places.
fn any_chain(asked: &Asked, totals: &Totals, dice: &mut Dice) -> (Lists, u32) {
    let out_of_ten = dice.pick([0, 2, 5, 9, 10]);
    let mut lists = [asked.length(); 3].map(rubbish);
    write(&mut lists, 0, [0; 3]);
    let (mut first, mut places) = (0, 1);
    for last in 1..=asked.slot {
        if last == asked.slot || dice.below(10) < out_of_ten {
            let mark = any_mark(dice, asked.limits);
            let amount = totals.amount(asked.limits, mark, first, last);
            write(&mut lists, places, [last, mark, amount as u32]);
            places += 1;
            first = last;
        }
    }
    (lists, places as u32)
}

/// A drawn stream, at any of its slots.
fn any_slot(dice: &mut Dice) -> Asked {
    let asked = Asked::last_of(draw::any(dice));
    asked.at(dice.below(asked.slot + 1))
}

/// Both sides' verdict. An accepted chain's sum is at least what is admitted.
fn verdict(asked: &Asked, totals: &Totals, lists: &Lists, places: u32) -> Result<bool, String> {
    let found = asked.check(lists, places);
    let case = || format!("{asked:?}, {lists:?}, {places} places");
    same("verdict", found, asked.checked_by_reference(lists, places))
        .map_err(|problem| format!("{}: {problem}", case()))?;
    if found != SOUND {
        return Ok(false);
    }
    let amounts = lists[2][..places as usize].iter().copied();
    let sum: u64 = amounts.map(u64::from).sum();
    if sum < totals.admitted {
        let admitted = totals.admitted;
        return Err(format!("{}: {sum} below {admitted}", case()));
    }
    Ok(true)
}

/// A chain of any links is accepted, and with any other number of places it is not: no other place
/// holds the slot asked for.
fn check_sound(asked: &Asked, dice: &mut Dice) -> Result<(), String> {
    let totals = Totals::of(asked);
    let (lists, places) = any_chain(asked, &totals, dice);
    if !verdict(asked, &totals, &lists, places)? {
        return Err(format!("{asked:?}, {lists:?}, {places} places: not sound"));
    }
    let length = asked.length() as u32;
    for other in [0, 1, places - 1, places + 1, length, length + 1, u32::MAX] {
        let sound = verdict(asked, &totals, &lists, other)?;
        same("sound", sound, other == places)
            .map_err(|problem| format!("{asked:?}, {lists:?}, {other} places: {problem}"))?;
    }
    Ok(())
}

#[test]
fn chains_of_any_links() {
    for_each_drawn(CHAINS, |dice| check_sound(&any_slot(dice), dice));
}

#[test]
fn long_chains_of_any_links() {
    for_each_drawn(LONG_CHAINS, |dice| {
        let file = draw::stream(dice, 1, 64, 4_000, 4_096);
        check_sound(&Asked::last_of(file), dice)
    });
}

/// Numbers that stand near one, far from it, or are told elsewhere in the case.
fn others(number: u32, asked: &Asked) -> impl Iterator<Item = u32> {
    let near = [number.wrapping_sub(1), number.wrapping_add(1)];
    let far = [0, 1, 2, 3, 4, asked.slot, asked.slot + 1, 1 << 31, u32::MAX];
    let all = near.into_iter().chain(far);
    all.filter(move |&other| other != number)
}

/// Each number of a chain in turn becomes another one. Another slot or mark may make another sound
/// chain; another amount or first place never does, and what stands beyond the places never matters.
fn check_damaged(asked: &Asked, dice: &mut Dice) -> Result<(), String> {
    let totals = Totals::of(asked);
    let (lists, places) = any_chain(asked, &totals, dice);
    for (list, place) in (0..3).flat_map(|list| (0..asked.length()).map(move |p| (list, p))) {
        for other in others(lists[list][place], asked) {
            let mut damaged = lists.clone();
            damaged[list][place] = other;
            let sound = verdict(asked, &totals, &damaged, places)?;
            let beyond = place >= places as usize;
            let settled = beyond || place == 0 || list == 2;
            if settled && sound != beyond {
                return Err(format!("{asked:?}, {damaged:?}, {places}: sound {sound}"));
            }
        }
    }
    Ok(())
}

#[test]
fn damaged_chains() {
    for_each_drawn(DAMAGED, |dice| {
        let drawn = Asked::last_of(draw::stream(dice, 1, 8, 0, 9));
        check_damaged(&drawn.at(dice.below(drawn.slot + 1)), dice)
    });
}

/// Places that nobody made for the trace, or only half: slots mostly rise, marks are mostly ones that
/// there are, and amounts are right now and then.
fn any_lists(asked: &Asked, totals: &Totals, dice: &mut Dice) -> (Lists, u32) {
    let mut lists = [asked.length(); 3].map(rubbish);
    let mut first = 0;
    for place in 0..asked.length() {
        let some = dice.below(asked.slot + 2);
        let last = dice.pick([first + 1, first + 1, first + 2, some, some]);
        let mark = dice.pick([1, 1, 2, 2, 3, 3, 0, 4]);
        let numbers = limits_allow(asked.limits, mark) && first < last && last <= asked.slot;
        let amount = match dice.below(6) {
            0 => dice.below(6),
            _ if numbers => totals.amount(asked.limits, mark, first, last) as u32,
            _ => 0,
        };
        let link = [last, mark, amount];
        let link = if place == 0 && dice.below(8) > 0 {
            [0; 3]
        } else {
            link
        };
        first = link[0];
        write(&mut lists, place, link);
    }
    (lists, dice.below(asked.length() as u32 + 2))
}

#[test]
fn lists_of_anyone() {
    let accepted = AtomicUsize::new(0);
    for_each_drawn(ANYONE_S, |dice| {
        let drawn = Asked::last_of(draw::stream(dice, 1, 4, 0, 5));
        let asked = drawn.at(dice.below(drawn.slot + 1));
        let totals = Totals::of(&asked);
        let (lists, places) = any_lists(&asked, &totals, dice);
        let sound = verdict(&asked, &totals, &lists, places)?;
        accepted.fetch_add(sound.into(), Ordering::Relaxed);
        Ok(())
    });
    let accepted = accepted.into_inner();
    println!("{accepted} of {ANYONE_S} accepted");
    assert!((ANYONE_S / 50..ANYONE_S / 2).contains(&accepted));
}

/// The chains that `docs/PENCIL.md` works by hand for Bella's slot 13: the one found, of one link,
/// and one of three links whose sum is 8 packets above it.
#[test]
fn bella_s_chains_by_hand() {
    let file = StreamFile::from_bytes(include_bytes!("../../../../streams/bella.stream"));
    let asked = Asked::last_of(file.expect("the right length")).at(13);
    let totals = Totals::of(&asked);
    assert_eq!(totals.admitted, 88);
    for chain in [
        &[[0, 0, 0], [13, 2, 88]][..],
        &[[0, 0, 0], [1, 3, 36], [12, 1, 22], [13, 2, 38]],
    ] {
        let mut lists = [asked.length(); 3].map(rubbish);
        for (place, link) in chain.iter().enumerate() {
            write(&mut lists, place, *link);
        }
        let places = chain.len() as u32;
        assert_eq!(verdict(&asked, &totals, &lists, places), Ok(true));
    }
}

/// The largest amount there is, f(4160), and a sum that needs more than 32 bits, in 4,096 links of
/// f(1+64) each.
#[test]
fn amounts_and_sums_at_their_largest() {
    let asked = Asked {
        table: vec![0, 1_000_000],
        limits: (64, NO_BUFFER),
        arrivals: vec![1_000_000; 4_096],
        slot: 4_096,
    };
    let totals = Totals::of(&asked);
    let mut one = [4_097; 3].map(rubbish);
    write(&mut one, 0, [0; 3]);
    write(&mut one, 1, [4_096, 2, 4_160_000_000]);
    assert_eq!(verdict(&asked, &totals, &one, 2), Ok(true));
    one[2][1] -= 1;
    assert_eq!(verdict(&asked, &totals, &one, 2), Ok(false));
    let links = |number: u32| [vec![0], vec![number; 4_096]].concat();
    let mut many = [(0..=4_096).collect(), links(2), links(65_000_000)];
    assert_eq!(verdict(&asked, &totals, &many, 4_097), Ok(true));
    many[2][4_096] += 1;
    assert_eq!(verdict(&asked, &totals, &many, 4_097), Ok(false));
}
