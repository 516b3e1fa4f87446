//! The part of a stream file that holds its counts: its bytes, its place and the refusals are those
//! of the reference's reader.

use bezhantiru::boundary::{self, Part};
use bezhantiru::{Refusal, stream};
use reference::layout::{Header, StreamFile};
use reference::refusal;
use tests_program::cases::{for_each_drawn, for_each_numbered};
use tests_program::dice::{Dice, seed};
use tests_program::samples::{SAMPLES, bytes};
use tests_program::{damage, draw};

const FILES: usize = 60_000;
const LONG_FILES: usize = 40;

/// The part that the reference's reader points out, and its number.
fn wanted(file: &[u8]) -> Part {
    let range = Header::read(file).map(|header| header.count_bytes());
    match (refusal::file(file), range) {
        (Ok(()), Some(range)) => Part {
            number: 0,
            from: range.start as u64,
            bytes: range.len() as u64,
        },
        (outcome, _) => Part {
            number: outcome.map_or_else(|refusal| refusal.number().into(), |()| 0),
            from: 0,
            bytes: 0,
        },
    }
}

/// The boundary's part, and the wrapper's: the very bytes of the lent file.
fn check(file: &[u8]) -> Result<(), String> {
    let (found, wanted) = (boundary::counts_part(file), wanted(file));
    if found != wanted {
        return Err(format!("{file:02x?}: found {found:?}, wanted {wanted:?}"));
    }
    let bytes = reference::stream::counts(file);
    match stream::counts(file) {
        Ok(part) if wanted.number == 0 && part.as_ptr_range() == bytes.as_ptr_range() => Ok(()),
        Err(refusal) if wanted.number != 0 && refusal.number() == wanted.number => Ok(()),
        other => Err(format!(
            "{file:02x?}: found {other:02x?}, wanted {wanted:?}"
        )),
    }
}

#[test]
fn drawn_files() {
    for_each_numbered(FILES, |number, dice| check(&damage::file(number, dice)));
}

#[test]
fn every_outcome_is_drawn() {
    let seed = seed().unwrap_or_else(|problem| panic!("{problem}"));
    let mut tally = [0; 15];
    for number in 0..FILES {
        let file = damage::file(number, &mut Dice::new(seed, number as u64));
        tally[wanted(&file).number as usize] += 1;
    }
    println!("SEED={seed} {tally:?}");
    for number in [0, 1, 2, 3, 4, 6, 7, 8, 10, 12, 13, 14] {
        assert!(tally[number] >= 100, "SEED={seed} {tally:?}");
    }
    for number in [5, 9, 11] {
        assert_eq!(tally[number], 0, "SEED={seed} {tally:?}");
    }
}

#[test]
fn long_files() {
    for_each_drawn(LONG_FILES, |dice| {
        let file = draw::stream(dice, 1, 64, 3_000, 4_096);
        check(&file.to_bytes())?;
        check(&damage::damaged(&file, dice))
    });
}

#[test]
fn samples_and_every_start_of_them() {
    for name in SAMPLES {
        let file = bytes(name, "stream");
        let ends = (0..=file.len()).filter(|&end| end < 400 || end + 20 > file.len());
        for end in ends {
            check(&file[..end]).unwrap_or_else(|problem| panic!("{name}, {end} bytes: {problem}"));
        }
    }
}

/// The counts as numbers, wherever the file starts in memory.
#[test]
fn a_file_at_any_address() {
    let dice = &mut Dice::new(1, 0);
    let file: StreamFile = draw::roomy(dice);
    let bytes = file.to_bytes();
    for first in 0..8 {
        let memory = [vec![0xA5; first], bytes.clone(), vec![0xA5; 8]].concat();
        let lent = &memory[first..first + bytes.len()];
        let counts = stream::counts(lent).map(reference::layout::numbers);
        assert_eq!(counts.as_ref(), Ok(&file.burst_counts));
        check(lent).unwrap_or_else(|problem| panic!("{problem}"));
    }
}

#[test]
fn files_without_counts() {
    let header = |bursts: u32| [1, 4, bursts, 0, 9, 0, 2].map(u32::to_le_bytes).concat();
    assert_eq!(stream::counts(&header(0)), Ok(&[][..]));
    let part = boundary::counts_part(&header(0));
    assert_eq!((part.number, part.from, part.bytes), (0, 28, 0));
    assert_eq!(stream::counts(&header(1)), Err(Refusal::FileOfOtherLength));
    assert_eq!(stream::counts(&[]), Err(Refusal::FileWithoutHeader));
    assert_eq!(stream::counts(&[0; 19]), Err(Refusal::FileWithoutHeader));
    assert_eq!(stream::counts(&[0; 20]), Err(Refusal::WindowsOutOfRange));
    let twice = [1, 4, 2, 0, 9, 0, 2, 3, 3, 5, 5];
    let twice = twice.map(u32::to_le_bytes).concat();
    assert_eq!(stream::counts(&twice), Err(Refusal::BurstSlotOutOfOrder));
}
