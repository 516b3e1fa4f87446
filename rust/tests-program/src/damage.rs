//! Files that are refused for one reason or for several, and files that are merely damaged.

use reference::layout::{HEADER_BYTES, StreamFile};

use crate::dice::Dice;
use crate::draw;

/// A file of the kind that the number says: two in five are accepted, some of them with both marks.
pub fn file(number: usize, dice: &mut Dice) -> Vec<u8> {
    match number % 5 {
        0 | 1 => draw::file(dice).to_bytes(),
        2 => faulty(draw::roomy(dice), dice),
        3 => damaged(&draw::any(dice), dice),
        _ => noise(dice),
    }
}

/// Sizes that are too large, among them those whose multiples by 4 or 8 wrap to small numbers.
const SIZES: [u32; 8] = [
    4_097,
    65_536,
    1 << 29,
    (1 << 29) + 1,
    1 << 30,
    (1 << 30) + 2,
    u32::MAX - 1,
    u32::MAX,
];

/// Spoils one number of the file; the file has room for every fault.
type Fault = fn(&mut StreamFile, &mut Dice);

const FAULTS: [Fault; 11] = [
    windows,
    sizes,
    bursts_off,
    first_entry,
    entry_above,
    entry_falls,
    delay,
    buffer,
    slot_range,
    slot_order,
    count,
];

/// A roomy file with one to four faults, sometimes cut or lengthened too.
pub fn faulty(mut file: StreamFile, dice: &mut Dice) -> Vec<u8> {
    for _ in 0..dice.between(1, 4) {
        let fault = FAULTS[dice.place(FAULTS.len())];
        fault(&mut file, dice);
    }
    let mut bytes = file.to_bytes();
    if dice.below(8) == 0 {
        other_length(&mut bytes, dice);
    }
    bytes
}

fn windows(file: &mut StreamFile, dice: &mut Dice) {
    let large = dice.pick(SIZES);
    file.header.last_window = dice.pick([0, 65, 66, large]);
}

fn sizes(file: &mut StreamFile, dice: &mut Dice) {
    if dice.below(2) == 0 {
        file.header.slots = dice.pick(SIZES);
    } else {
        file.header.bursts = dice.pick(SIZES);
    }
}

fn bursts_off(file: &mut StreamFile, dice: &mut Dice) {
    let bursts = file.header.bursts;
    file.header.bursts = dice.pick([bursts.saturating_sub(1), bursts.saturating_add(1), 0]);
}

fn first_entry(file: &mut StreamFile, dice: &mut Dice) {
    file.table[0] = dice.pick([1, 256, 1_000_001, u32::MAX]);
}

fn entry_above(file: &mut StreamFile, dice: &mut Dice) {
    let window = 1 + dice.place(file.table.len() - 1);
    file.table[window] = dice.pick([1_000_001, 1_000_002, 1 << 31, u32::MAX]);
}

fn entry_falls(file: &mut StreamFile, dice: &mut Dice) {
    let window = 2 + dice.place(file.table.len() - 2);
    let before = file.table[window - 1].max(1);
    file.table[window - 1] = before;
    file.table[window] = dice.pick([0, before - 1]);
}

fn delay(file: &mut StreamFile, dice: &mut Dice) {
    file.header.delay = dice.pick([65, 66, 254, 256, 257, 511, 65_535, u32::MAX]);
}

fn buffer(file: &mut StreamFile, dice: &mut Dice) {
    file.header.buffer = dice.pick([1_000_001, 1 << 31, u32::MAX - 1]);
}

fn slot_range(file: &mut StreamFile, dice: &mut Dice) {
    let place = dice.place(file.burst_slots.len());
    let beyond = file.header.slots.saturating_add(1);
    file.burst_slots[place] = dice.pick([0, beyond, u32::MAX]);
}

fn slot_order(file: &mut StreamFile, dice: &mut Dice) {
    let place = 1 + dice.place(file.burst_slots.len() - 1);
    let before = file.burst_slots[place - 1];
    file.burst_slots[place] = dice.pick([before, before.saturating_sub(1).max(1)]);
}

fn count(file: &mut StreamFile, dice: &mut Dice) {
    let place = dice.place(file.burst_counts.len());
    file.burst_counts[place] = dice.pick([1_000_001, 1 << 31, u32::MAX]);
}

/// A file cut anywhere, lengthened, with a byte changed, or with a header number near 2^32.
pub fn damaged(file: &StreamFile, dice: &mut Dice) -> Vec<u8> {
    let mut bytes = file.to_bytes();
    match dice.below(5) {
        0 => bytes.truncate(dice.place(bytes.len())),
        1 => bytes.truncate(dice.place(HEADER_BYTES + 2)),
        2 => other_length(&mut bytes, dice),
        3 => change_byte(&mut bytes, dice),
        _ => change_header(&mut bytes, dice),
    }
    bytes
}

/// Bytes that were never a file.
pub fn noise(dice: &mut Dice) -> Vec<u8> {
    let length = dice.below(60);
    let most = dice.pick([1, 3, 70, 255]);
    (0..length).map(|_| dice.byte().min(most)).collect()
}

fn other_length(bytes: &mut Vec<u8>, dice: &mut Dice) {
    let by = dice.pick([1, 2, 3, 4, 8, 12]);
    if dice.below(2) == 0 {
        bytes.truncate(bytes.len().saturating_sub(by));
    } else {
        bytes.resize(bytes.len() + by, 0);
    }
}

fn change_byte(bytes: &mut [u8], dice: &mut Dice) {
    let place = dice.place(bytes.len());
    bytes[place] = dice.byte();
}

fn change_header(bytes: &mut [u8], dice: &mut Dice) {
    let place = 4 * dice.place(HEADER_BYTES / 4);
    let number = u32::MAX - dice.below(9);
    bytes[place..place + 4].copy_from_slice(&number.to_le_bytes());
}
