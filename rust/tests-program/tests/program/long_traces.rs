//! A handful of traces with 4,096 slots, where totals grow as large as they can.

use reference::layout::{NO_BUFFER, NO_DELAY, StreamFile};
use tests_program::compare::{compare, for_each};
use tests_program::dice::{Dice, seed};
use tests_program::draw;
use tests_program::program::Program;

const LIMITS: [(u32, u32); 6] = [
    (NO_DELAY, NO_BUFFER),
    (NO_DELAY, 1_000_000),
    (64, NO_BUFFER),
    (64, 1_000_000),
    (3, 40),
    (0, 0),
];

/// The widest table, one of zeros, and one whose entries stay at the first.
fn tables() -> [Vec<u32>; 3] {
    let mut flat = vec![7; 65];
    flat[0] = 0;
    [vec![0, 1_000_000], vec![0; 65], flat]
}

/// Every slot has as many arrivals as a slot can.
fn full(limits: (u32, u32), table: &[u32]) -> StreamFile {
    StreamFile::of_arrivals(table, limits, &[1_000_000; 4_096])
}

fn drawn(limits: (u32, u32), dice: &mut Dice) -> StreamFile {
    let mut file = draw::stream(dice, 1, 64, 4_096, 4_096);
    (file.header.delay, file.header.buffer) = limits;
    file
}

#[test]
fn long_traces() {
    let program = Program::find().unwrap_or_else(|problem| panic!("{problem}"));
    let seed = seed().unwrap_or_else(|problem| panic!("{problem}"));
    println!("SEED={seed}");
    let mut files = Vec::new();
    for (number, limits) in LIMITS.into_iter().enumerate() {
        files.extend(tables().map(|table| full(limits, &table)));
        files.push(drawn(limits, &mut Dice::new(seed, number as u64)));
    }
    let done = for_each(files.len(), |number| {
        compare(&program, &files[number].to_bytes())
    });
    done.unwrap_or_else(|problem| panic!("SEED={seed}, {problem}"));
}
