//! Stream files: read as written, refused in the file's order.

use reference::layout::{StreamFile, WrongLength};
use reference::refusal::{self, Refusal};
use reference::stream::{Stream, counts, read};

type Spoil = fn(&mut StreamFile);

fn sample() -> StreamFile {
    StreamFile::of(&[0, 2, 3], (1, 9), 4, [(1, 5), (3, 4)])
}

/// The sample's bytes after some change.
fn changed(change: impl Fn(&mut StreamFile)) -> Vec<u8> {
    let mut file = sample();
    change(&mut file);
    file.to_bytes()
}

fn refused(change: impl Fn(&mut StreamFile)) -> u8 {
    refusal::file(&changed(change))
        .err()
        .map_or(0, Refusal::number)
}

#[test]
fn bytes_stand_where_the_document_says() {
    let words = [2, 4, 2, 1, 9, 0, 2, 3, 1, 3, 5, 4];
    let bytes: Vec<u8> = words
        .into_iter()
        .flat_map(|word: u8| [word, 0, 0, 0])
        .collect();
    assert_eq!(sample().to_bytes(), bytes);
    assert_eq!(StreamFile::from_bytes(&bytes), Ok(sample()));
    assert_eq!(
        changed(|file| file.header.buffer = 0x0102_0304)[16..20],
        [4, 3, 2, 1]
    );
}

#[test]
fn a_stream_is_read_and_its_counts_are_pointed_out() {
    let bytes = sample().to_bytes();
    let wanted = Stream {
        table: vec![0, 2, 3],
        delay: 1,
        buffer: 9,
        arrivals: vec![5, 0, 4, 0],
    };
    assert_eq!(read(&bytes), Ok(wanted));
    assert_eq!(counts(&bytes), [5, 0, 0, 0, 4, 0, 0, 0]);
    assert!(std::ptr::eq(counts(&bytes), &bytes[40..]));
}

#[test]
fn a_refused_file_has_the_empty_part_at_its_start() {
    let bytes = changed(|file| file.header.delay = 65);
    assert_eq!(read(&bytes), Err(Refusal::DelayOutOfRange));
    assert!(std::ptr::eq(counts(&bytes), &bytes[..0]));
    assert!(counts(&[]).is_empty());
}

#[test]
fn every_number_of_a_file() {
    assert_eq!(refused(|_| ()), 0);
    assert_eq!(refused(|file| file.header.last_window = 0), 1);
    assert_eq!(refused(|file| file.header.last_window = 65), 1);
    assert_eq!(refused(|file| file.header.slots = 4_097), 10);
    assert_eq!(refused(|file| file.header.bursts = 4_097), 10);
    assert_eq!(refused(|file| file.header.bursts = 1), 13);
    assert_eq!(refused(|file| file.table[0] = 1), 2);
    assert_eq!(refused(|file| file.table[2] = 1_000_001), 3);
    assert_eq!(refused(|file| file.table[2] = 1), 4);
    assert_eq!(refused(|file| file.header.delay = 65), 6);
    assert_eq!(refused(|file| file.header.buffer = 1_000_001), 7);
    assert_eq!(refused(|file| file.burst_slots[0] = 0), 14);
    assert_eq!(refused(|file| file.burst_slots[0] = 3), 14);
    assert_eq!(refused(|file| file.burst_slots[1] = 5), 14);
    assert_eq!(refused(|file| file.burst_counts[0] = 1_000_001), 8);
    assert_eq!(refused(|file| file.burst_counts = vec![0, 1_000_000]), 0);
}

#[test]
fn each_check_goes_before_those_after_it() {
    let steps: [(u8, Spoil); 10] = [
        (8, |file| file.burst_counts[0] = 1_000_001),
        (14, |file| file.burst_slots[1] = 1),
        (7, |file| file.header.buffer = 4_294_967_294),
        (6, |file| file.header.delay = 254),
        (3, |file| file.table[2] = 1_000_001),
        (4, |file| file.table.splice(1.., [2, 1]).for_each(drop)),
        (2, |file| file.table[0] = 9),
        (13, |file| file.burst_counts.push(0)),
        (10, |file| file.header.slots = 4_097),
        (1, |file| file.header.last_window = u32::MAX),
    ];
    let mut file = sample();
    for (number, spoil) in steps {
        spoil(&mut file);
        assert_eq!(
            refusal::file(&file.to_bytes()).err().map(Refusal::number),
            Some(number)
        );
    }
    let short = &file.to_bytes()[..19];
    assert_eq!(refusal::file(short), Err(Refusal::FileWithoutHeader));
}

#[test]
fn sizes_near_the_largest_number_do_not_overflow() {
    for size in [u32::MAX, u32::MAX - 1, 1 << 31, 1 << 30, 1 << 29] {
        assert_eq!(refused(|file| file.header.last_window = size), 1);
        assert_eq!(refused(|file| file.header.slots = size), 10);
        assert_eq!(refused(|file| file.header.bursts = size), 10);
    }
    let largest = changed(|file| {
        file.header.last_window = u32::MAX;
        file.header.bursts = u32::MAX;
    });
    let wanted = 20 + (4 << 32) + 8 * 0xFFFF_FFFF;
    let found = 48;
    assert_eq!(
        StreamFile::from_bytes(&largest),
        Err(WrongLength { wanted, found })
    );
}

#[test]
fn a_wrong_length_names_the_byte() {
    let message = |bytes: &[u8]| {
        StreamFile::from_bytes(bytes)
            .expect_err("a wrong length")
            .to_string()
    };
    let bytes = sample().to_bytes();
    assert_eq!(
        message(&bytes[..7]),
        "byte 7: the file ends here, but has to have 20 bytes"
    );
    assert_eq!(
        message(&bytes[..47]),
        "byte 47: the file ends here, but has to have 48 bytes"
    );
    let longer = [&bytes[..], &[0]].concat();
    assert_eq!(
        message(&longer),
        "byte 48: the file has to end here, but has 49 bytes"
    );
}
