//! Streams that are accepted, drawn at random.

use reference::layout::{Header, NO_BUFFER, NO_DELAY, StreamFile};

use crate::dice::Dice;

const MOST_PACKETS: u32 = 1_000_000;

/// Mostly a few slots; one in fifteen has some hundred, under a table of up to 64 windows.
pub fn any(dice: &mut Dice) -> StreamFile {
    if dice.below(15) == 0 {
        stream(dice, 1, 64, 0, 200)
    } else {
        stream(dice, 1, 8, 0, 14)
    }
}

/// A stream with room for every fault: three windows, two slots and two bursts at least.
pub fn roomy(dice: &mut Dice) -> StreamFile {
    loop {
        let drawn = stream(dice, 3, 10, 2, 10);
        if drawn.header.bursts >= 2 {
            return drawn;
        }
    }
}

/// A table that lets packets depart, and two limits that are numbers and let packets wait, for long
/// traces of one's own. Where f(1) is 0, so is f everywhere; packets wait where q is above f(1).
pub fn limited(dice: &mut Dice) -> StreamFile {
    loop {
        let mut drawn = stream(dice, 1, 64, 0, 0);
        let rate = drawn.table[drawn.table.len() - 1] / drawn.header.last_window;
        let at_once = drawn.table[1];
        if (1..MOST_PACKETS).contains(&at_once) {
            drawn.header.delay = dice.pick([1, 2, 3, 5, 8, 33, 63, 64]);
            drawn.header.buffer = (at_once + 1 + dice.below(6 * rate)).min(MOST_PACKETS);
            return drawn;
        }
    }
}

/// A stream within the given numbers of windows and slots.
pub fn stream(
    dice: &mut Dice,
    least_windows: u32,
    most_windows: u32,
    least_slots: u32,
    most_slots: u32,
) -> StreamFile {
    let last_window = dice.between(least_windows, most_windows);
    let table = table(dice, last_window);
    let rate = table[table.len() - 1] / last_window + 1;
    let slots = dice.between(least_slots, most_slots);
    let (burst_slots, burst_counts) = bursts(dice, slots, rate);
    let delay = delay(dice);
    let header = Header {
        last_window,
        slots,
        bursts: burst_slots.len() as u32,
        delay,
        buffer: beside(delay, buffer(dice, rate)),
    };
    StreamFile {
        header,
        table,
        burst_slots,
        burst_counts,
    }
}

/// Steps between entries in one of six shapes: as drawn, falling (subadditive), rising (not
/// subadditive), none, one late jump, and one early jump.
pub(crate) fn table(dice: &mut Dice, last_window: u32) -> Vec<u32> {
    let highest = dice.pick([1, 2, 4, 9, 30, 1_000, 400_000]);
    let mut steps: Vec<u32> = (0..last_window).map(|_| dice.below(highest + 1)).collect();
    let last = steps.len() - 1;
    match dice.below(7) {
        0 | 1 => steps.sort_by(|a, b| b.cmp(a)),
        2 => steps.sort(),
        3 => steps.fill(0),
        4 => steps[..last].fill(0),
        5 => steps[1..].fill(0),
        _ => (),
    }
    entries(&steps)
}

/// The table with these steps, which rises no further than an entry may.
pub(crate) fn entries(steps: &[u32]) -> Vec<u32> {
    let mut table = vec![0];
    for step in steps {
        table.push((table[table.len() - 1] + step).min(MOST_PACKETS));
    }
    table
}

/// The buffer limit beside a delay limit: both none are no set-up's.
pub(crate) fn beside(delay: u32, buffer: u32) -> u32 {
    if delay == NO_DELAY && buffer == NO_BUFFER {
        MOST_PACKETS
    } else {
        buffer
    }
}

/// Any stream as a file, which may carry both marks.
pub fn file(dice: &mut Dice) -> StreamFile {
    let mut drawn = any(dice);
    if dice.below(8) == 0 {
        drawn.header.delay = NO_DELAY;
        drawn.header.buffer = NO_BUFFER;
    }
    drawn
}

fn delay(dice: &mut Dice) -> u32 {
    let number = dice.below(65);
    dice.pick([
        0, 1, 1, 2, 2, 3, 5, 64, number, NO_DELAY, NO_DELAY, NO_DELAY,
    ])
}

fn buffer(dice: &mut Dice, rate: u32) -> u32 {
    let some = dice.below(4 * rate + 4).min(MOST_PACKETS);
    dice.pick([
        0,
        1,
        2,
        some,
        some,
        some,
        MOST_PACKETS,
        NO_BUFFER,
        NO_BUFFER,
    ])
}

/// Slots and counts; some traces are full, some sparse, and some slots have as many arrivals as a
/// slot can.
fn bursts(dice: &mut Dice, slots: u32, rate: u32) -> (Vec<u32>, Vec<u32>) {
    let out_of_ten = dice.pick([0, 2, 5, 8, 10, 10]);
    let named: Vec<u32> = (1..=slots)
        .filter(|_| dice.below(10) < out_of_ten)
        .collect();
    let counts = named.iter().map(|_| count(dice, rate)).collect();
    (named, counts)
}

fn count(dice: &mut Dice, rate: u32) -> u32 {
    match dice.below(40) {
        0 => MOST_PACKETS,
        1..=5 => 0,
        6..=10 => dice.below(8 * rate + 3).min(MOST_PACKETS),
        _ => dice.below(2 * rate + 2).min(MOST_PACKETS),
    }
}
