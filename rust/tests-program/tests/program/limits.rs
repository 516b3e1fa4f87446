//! Values at every limit of document 01 and one beyond, each with the outcome written beside it.

use reference::layout::StreamFile;
use reference::refusal::{self, Refusal};
use tests_program::compare::{check_each, compare};
use tests_program::program::Program;

/// A file and the number it is refused with, 0 for an accepted one.
type Case = (u8, Vec<u8>);

fn file(table: Vec<u32>, slots: u32, bursts: &[(u32, u32)]) -> StreamFile {
    StreamFile::of(&table, (1, 9), slots, bursts.iter().copied())
}

fn sample() -> StreamFile {
    file(vec![0, 2, 3], 4, &[(1, 5), (3, 4)])
}

fn cases<T: Copy>(wanted: u8, values: &[T], set: fn(&mut StreamFile, T)) -> Vec<Case> {
    let changed = |value: &T| {
        let mut file = sample();
        set(&mut file, *value);
        (wanted, file.to_bytes())
    };
    values.iter().map(changed).collect()
}

fn set_windows(file: &mut StreamFile, last: u32) {
    file.header.last_window = last;
    file.table = (0..=last).collect();
}

fn windows() -> Vec<Case> {
    let bare: fn(&mut StreamFile, u32) = |file, last| file.header.last_window = last;
    [
        cases(0, &[1, 2, 63, 64], set_windows),
        cases(1, &[0, 65, 66, 128, 256], set_windows),
        cases(1, &[0, 65, 1 << 30, u32::MAX - 1, u32::MAX], bare),
        cases(13, &[1, 3, 64], bare),
    ]
    .concat()
}

fn entries() -> Vec<Case> {
    let at: fn(&mut StreamFile, (usize, u32)) = |file, (window, entry)| file.table[window] = entry;
    [
        cases(
            0,
            &[(2, 999_999), (2, 1_000_000), (2, 2), (1, 0), (1, 3)],
            at,
        ),
        cases(2, &[(0, 1), (0, 2), (0, 1_000_001), (0, u32::MAX)], at),
        cases(3, &[(1, 1_000_001), (2, 1_000_001), (2, u32::MAX)], at),
        cases(4, &[(1, 4), (1, 1_000_000), (2, 1), (2, 0)], at),
    ]
    .concat()
}

fn limits() -> Vec<Case> {
    let delay: fn(&mut StreamFile, u32) = |file, number| file.header.delay = number;
    let buffer: fn(&mut StreamFile, u32) = |file, number| file.header.buffer = number;
    let no_delays = [
        65,
        66,
        128,
        254,
        256,
        257,
        320,
        511,
        65_791,
        u32::MAX - 1,
        u32::MAX,
    ];
    [
        cases(0, &[0, 1, 63, 64, 255], delay),
        cases(6, &no_delays, delay),
        cases(0, &[0, 1, 999_999, 1_000_000, 4_294_967_295], buffer),
        cases(7, &[1_000_001, 1 << 31, 4_294_967_294], buffer),
    ]
    .concat()
}

fn counts() -> Vec<Case> {
    let first: fn(&mut StreamFile, u32) = |file, count| file.burst_counts[0] = count;
    let last: fn(&mut StreamFile, u32) = |file, count| file.burst_counts[1] = count;
    [
        cases(0, &[0, 999_999, 1_000_000], first),
        cases(8, &[1_000_001, u32::MAX], first),
        cases(0, &[0, 1_000_000], last),
        cases(8, &[1_000_001, 1 << 31], last),
    ]
    .concat()
}

fn slots() -> Vec<Case> {
    let pair: fn(&mut StreamFile, [u32; 2]) = |file, slots| file.burst_slots = slots.to_vec();
    let number: fn(&mut StreamFile, u32) = |file, slots| file.header.slots = slots;
    [
        cases(0, &[[1, 2], [1, 4], [3, 4]], pair),
        cases(
            14,
            &[
                [0, 1],
                [1, 0],
                [1, 5],
                [2, 2],
                [3, 1],
                [5, 6],
                [1, u32::MAX],
            ],
            pair,
        ),
        cases(0, &[3, 4_095, 4_096], number),
        cases(14, &[0, 1, 2], number),
        cases(
            10,
            &[4_097, 65_540, 1 << 31, u32::MAX - 1, u32::MAX],
            number,
        ),
    ]
    .concat()
}

fn bursts() -> Vec<Case> {
    let bare: fn(&mut StreamFile, u32) = |file, bursts| file.header.bursts = bursts;
    let numbered = |count: u32| (1..=count).map(|slot| (slot, slot % 7)).collect::<Vec<_>>();
    let with = |slots, count| file(vec![0, 2, 3], slots, &numbered(count)).to_bytes();
    let own = vec![
        (0, with(0, 0)),
        (0, with(4, 0)),
        (0, with(1, 1)),
        (14, with(0, 1)),
        (14, with(1, 2)),
        (0, with(4_096, 4_095)),
        (0, with(4_096, 4_096)),
        (14, with(4_095, 4_096)),
        (10, with(4_096, 4_097)),
    ];
    let wrapping = [4_097, 1 << 29, (1 << 29) + 2, u32::MAX - 1, u32::MAX];
    [
        own,
        cases(13, &[0, 1, 3, 4_096], bare),
        cases(10, &wrapping, bare),
    ]
    .concat()
}

fn lengths() -> Vec<Case> {
    let bytes = sample().to_bytes();
    let cut = |length: usize| bytes[..length].to_vec();
    let mut all: Vec<Case> = (0..20).map(|length| (12, cut(length))).collect();
    all.extend((20..bytes.len()).map(|length| (13, cut(length))));
    all.extend((1..=8).map(|more| (13, [&bytes[..], &vec![0; more]].concat())));
    all
}

/// The longest legal file has 33,048 bytes.
fn long_files() -> Vec<Case> {
    let every_slot: Vec<(u32, u32)> = (1..=4_096).map(|slot| (slot, slot % 7)).collect();
    let longest = file((0..=64).collect(), 4_096, &every_slot).to_bytes();
    assert_eq!(longest.len(), 33_048);
    let sized = |start: &[u8], length: usize| {
        let mut bytes = start.to_vec();
        bytes.resize(length, 0);
        bytes
    };
    let with_size = |place: usize, size: u32| {
        let mut bytes = longest.clone();
        bytes[place..place + 4].copy_from_slice(&size.to_le_bytes());
        bytes
    };
    let mut all = vec![(0, longest.clone()), (13, sized(&longest, 33_047))];
    let short = sample().to_bytes();
    for length in [
        33_049,
        33_052,
        40_000,
        65_536 + 48,
        70_000,
        98_584,
        1_000_000,
    ] {
        all.push((13, sized(&longest, length)));
        all.push((13, sized(&short, length)));
        all.push((1, sized(&with_size(0, 65), length)));
        all.push((10, sized(&with_size(4, 4_097), length)));
        all.push((10, sized(&with_size(8, 4_097), length)));
    }
    all
}

fn all() -> Vec<Case> {
    let numbers = [windows(), entries(), limits(), counts(), slots(), bursts()];
    [numbers.concat(), lengths(), long_files()].concat()
}

#[test]
fn the_reference_gives_the_numbers_written_here() {
    for (number, (wanted, file)) in all().iter().enumerate() {
        let found = refusal::file(file).err().map_or(0, Refusal::number);
        assert_eq!(found, *wanted, "number {number}");
    }
}

#[test]
fn the_program_prints_what_the_reference_prints() {
    let program = Program::find().unwrap_or_else(|problem| panic!("{problem}"));
    let all = all();
    check_each(all.len(), |number| compare(&program, &all[number].1));
}
