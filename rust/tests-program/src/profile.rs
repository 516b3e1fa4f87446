//! Devices of leaky buckets and their arrivals, drawn at random. Document 02, 2.2.

use reference::bucket::Bucket;
use reference::layout::{NO_BUFFER, NO_DELAY};

use crate::dice::Dice;
use crate::draw;

const MOST_PACKETS: u32 = 1_000_000;

/// A profile as a device takes it, the rate and the burst of each bucket in turn; d and q; and the
/// arrivals of slots 1, 2, ..
#[derive(Clone, Debug)]
pub struct Drawn {
    pub profile: Vec<u32>,
    pub delay: u32,
    pub buffer: u32,
    pub arrivals: Vec<u64>,
}

impl Drawn {
    /// The buckets as the reference takes them.
    pub fn buckets(&self) -> Vec<Bucket> {
        let pairs = self.profile.chunks_exact(2);
        pairs
            .map(|pair| (u64::from(pair[0]), u64::from(pair[1])))
            .collect()
    }
}

/// Mostly a few slots; one in fifteen has some hundred.
pub fn any(dice: &mut Dice) -> Drawn {
    let most_slots = if dice.below(15) == 0 { 300 } else { 24 };
    let slots = dice.below(most_slots + 1);
    device(dice, slots)
}

/// One to four buckets, limits and so many slots, all about as large as each other, so that every
/// part has its say.
pub fn device(dice: &mut Dice, slots: u32) -> Drawn {
    let scale = dice.pick([1, 2, 4, 9, 30, 1_000, 400_000, MOST_PACKETS]);
    let buckets = dice.between(1, 4);
    let profile = profile(dice, buckets, scale);
    let (delay, buffer) = limits(dice, scale);
    Drawn {
        profile,
        delay,
        buffer,
        arrivals: arrivals(dice, slots, scale),
    }
}

/// Two to four buckets with falling rates and rising bursts, tight limits, and arrivals in turns of
/// spikes, which meet the high rates, and of steady load, which meets the large bursts: mostly
/// several buckets make the device lose.
pub fn competing(dice: &mut Dice, slots: u32) -> Drawn {
    let scale = dice.pick([4, 9, 30, 1_000, 60_000]);
    let (mut rate, mut burst) = (dice.between(scale / 2, scale), dice.below(scale));
    let mut profile = Vec::new();
    for _ in 0..dice.between(2, 4) {
        profile.extend([rate, burst]);
        rate -= dice.below(rate / 2 + 1);
        burst += dice.below(4 * scale);
    }
    let some = dice.below(scale);
    let mut arrivals = Vec::new();
    while arrivals.len() < slots as usize {
        let turn = dice.between(1, 8) as usize;
        match dice.below(3) {
            0 => arrivals.push(dice.between(scale, 6 * scale)),
            1 => arrivals.extend((0..turn).map(|_| dice.between(rate, 2 * rate + 1))),
            _ => arrivals.extend(vec![0; turn]),
        }
    }
    arrivals.truncate(slots as usize);
    Drawn {
        profile,
        delay: dice.pick([0, 1, 2, NO_DELAY]),
        buffer: dice.pick([1 + some, scale + some, 2 * scale + some, 3 * scale]),
        arrivals: arrivals.into_iter().map(u64::from).collect(),
    }
}

/// As drawn, or with falling rates and rising bursts, so that each bucket may be the lowest
/// somewhere.
fn profile(dice: &mut Dice, buckets: u32, scale: u32) -> Vec<u32> {
    let mut rates: Vec<u32> = (0..buckets).map(|_| rate(dice, scale)).collect();
    let mut bursts: Vec<u32> = (0..buckets).map(|_| burst(dice, scale)).collect();
    if dice.below(3) > 0 {
        rates.sort_by(|a, b| b.cmp(a));
        bursts.sort();
    }
    let pairs = rates.into_iter().zip(bursts);
    pairs.flat_map(|(rate, burst)| [rate, burst]).collect()
}

fn rate(dice: &mut Dice, scale: u32) -> u32 {
    let any = dice.below(scale + 1);
    match dice.below(24) {
        0 => MOST_PACKETS,
        1 | 2 => 0,
        3..=5 => 1,
        6..=8 => scale,
        _ => any,
    }
}

fn burst(dice: &mut Dice, scale: u32) -> u32 {
    let any = dice.below(scale + 1);
    let more = dice.below(8 * scale + 1).min(MOST_PACKETS);
    match dice.below(24) {
        0 => MOST_PACKETS,
        1..=4 => 0,
        5..=7 => 1,
        8..=15 => more,
        _ => any,
    }
}

pub(crate) fn limits(dice: &mut Dice, scale: u32) -> (u32, u32) {
    let delay = delay(dice);
    (delay, draw::beside(delay, buffer(dice, scale)))
}

fn delay(dice: &mut Dice) -> u32 {
    let number = dice.below(65);
    dice.pick([
        0, 1, 1, 2, 2, 3, 5, 63, 64, number, NO_DELAY, NO_DELAY, NO_DELAY,
    ])
}

pub(crate) fn buffer(dice: &mut Dice, scale: u32) -> u32 {
    let some = dice.below(4 * scale + 2).min(MOST_PACKETS);
    let most = MOST_PACKETS;
    dice.pick([0, 1, 2, some, some, some, most, NO_BUFFER, NO_BUFFER])
}

/// Some traces are full, some sparse, some come in turns of both.
pub(crate) fn arrivals(dice: &mut Dice, slots: u32, scale: u32) -> Vec<u64> {
    let (dense, sparse) = (dice.pick([2, 5, 8, 10, 10]), dice.pick([0, 1, 10]));
    let turn = dice.between(1, 12);
    let out_of_ten = |slot: u32| {
        if (slot / turn).is_multiple_of(2) {
            dense
        } else {
            sparse
        }
    };
    let count = |dice: &mut Dice, slot| {
        if dice.below(10) < out_of_ten(slot) {
            count(dice, scale)
        } else {
            0
        }
    };
    (0..slots)
        .map(|slot| u64::from(count(dice, slot)))
        .collect()
}

fn count(dice: &mut Dice, scale: u32) -> u32 {
    match dice.below(40) {
        0 => MOST_PACKETS,
        1..=5 => 1,
        6..=10 => dice.below(8 * scale + 3).min(MOST_PACKETS),
        _ => dice.below(2 * scale + 2).min(MOST_PACKETS),
    }
}
