//! Document 01, "Refused, by place": every number, every limit and one beyond, and the order.

use reference::layout::{NO_BUFFER, NO_DELAY};
use reference::refusal::{self, Refusal};
use reference::regulator::Regulator;
use reference::trace::run;

const TABLE: [u64; 3] = [0, 2, 3];

fn number(outcome: Result<(), Refusal>) -> u8 {
    outcome.err().map_or(0, Refusal::number)
}

#[test]
fn tables() {
    let rising = |entries: u64| (0..entries).collect::<Vec<u64>>();
    assert_eq!(number(refusal::table(&rising(65))), 0);
    assert_eq!(number(refusal::table(&rising(66))), 1);
    assert_eq!(number(refusal::table(&rising(2))), 0);
    assert_eq!(number(refusal::table(&[0])), 1);
    assert_eq!(number(refusal::table(&[])), 1);
    assert_eq!(number(refusal::table(&[7])), 1);
    assert_eq!(number(refusal::table(&[1, 0])), 2);
    assert_eq!(number(refusal::table(&[1_000_001, 1_000_001])), 2);
    assert_eq!(number(refusal::table(&[0, 1_000_000])), 0);
    assert_eq!(number(refusal::table(&[0, 1_000_001])), 3);
    assert_eq!(number(refusal::table(&[0, 3, 2])), 4);
    assert_eq!(number(refusal::table(&[0, 3, 2, 1_000_001])), 4);
    assert_eq!(number(refusal::table(&[0, 3, 1_000_001, 2])), 3);
}

#[test]
fn limits() {
    let no_buffer = u64::from(NO_BUFFER);
    for (delay, wanted) in [(0, 0), (64, 0), (65, 6), (254, 6), (255, 0), (256, 6)] {
        assert_eq!(number(refusal::limits(delay, no_buffer)), wanted, "{delay}");
    }
    let beyond = [
        (1_000_000, 0),
        (1_000_001, 7),
        (no_buffer - 1, 7),
        (no_buffer, 0),
    ];
    for (buffer, wanted) in beyond {
        assert_eq!(
            number(refusal::limits(NO_DELAY.into(), buffer)),
            wanted,
            "{buffer}"
        );
    }
    assert_eq!(number(refusal::limits(65, 1_000_001)), 6);
    assert_eq!(number(refusal::set_up(&[0, 3, 2], 65, 1_000_001)), 4);
    assert_eq!(number(refusal::set_up(&[0, 3, 2], 255, no_buffer)), 4);
    assert_eq!(number(refusal::set_up(&TABLE, 255, no_buffer)), 23);
    assert_eq!(number(refusal::set_up(&TABLE, 255, 1_000_000)), 0);
    assert_eq!(number(refusal::set_up(&TABLE, 64, no_buffer)), 0);
}

/// After the table, or what stands in its place, and before 10, 11, 8 and 18.
#[test]
fn both_limits_none_after_the_table_and_before_the_trace() {
    let (d, q) = (u64::from(NO_DELAY), u64::from(NO_BUFFER));
    let (rising, falling) = (TABLE.to_vec(), vec![0, 3, 2]);
    for (arrivals, lengths, slot) in [
        (vec![1_000_001; 4_097], [0; 3], 9_999),
        (vec![1_000_001; 2], [0; 3], 9),
        (vec![1_000_001; 2], [2; 3], 9),
        (vec![5, 0], [2; 3], 9),
        (vec![5, 0], [2; 3], 2),
    ] {
        let run = |table: &[u64]| number(refusal::trace(table, d, q, &arrivals, lengths));
        assert_eq!((run(&rising), run(&falling)), (23, 4));
        let path = |tables: &[Vec<u64>]| number(refusal::path(tables, d, q, &arrivals, lengths));
        assert_eq!(path(&[rising.clone(), rising.clone()]), 23);
        assert_eq!(path(&[rising.clone(), falling.clone()]), 4);
        assert_eq!(path(&[]), 17);
        let lengths = lengths.map(|length| length + 1);
        let chain = |table: &[u64]| number(refusal::chain(table, d, q, &arrivals, slot, lengths));
        assert_eq!((chain(&rising), chain(&falling)), (23, 4));
    }
    let device = |profile: &[(u64, u64)]| number(refusal::bucket_set_up(profile, d, q));
    assert_eq!(device(&[(4, 0), (1, 12)]), 23);
    assert_eq!(device(&[(4, 0), (1, 1_000_001)]), 16);
    assert_eq!(device(&[]), 15);
}

#[test]
fn slots() {
    assert_eq!(number(refusal::slot(1_000_000, 999_999)), 0);
    assert_eq!(number(refusal::slot(1_000_001, 999_999)), 8);
    assert_eq!(number(refusal::slot(1_000_000, 1_000_000)), 9);
    assert_eq!(number(refusal::slot(1_000_001, 1_000_000)), 8);
}

#[test]
fn a_refused_slot_leaves_the_regulator() {
    let mut live = Regulator::set_up(&TABLE, 1, 9).expect("an accepted set-up");
    live.slot(5).expect("an accepted slot");
    let before = live.clone();
    assert_eq!(live.slot(1_000_001), Err(Refusal::TooManyArrivals));
    assert_eq!(live, before);
    assert_eq!(live.slot(1_000_000).expect("an accepted slot").admitted, 2);
}

#[test]
fn a_refused_set_up_gives_no_regulator() {
    assert_eq!(
        Regulator::set_up(&[0], 65, 9),
        Err(Refusal::WindowsOutOfRange)
    );
    assert_eq!(
        Regulator::set_up(&TABLE, 65, 9),
        Err(Refusal::DelayOutOfRange)
    );
}

#[test]
fn traces() {
    let outcome = |delay, arrivals: &[u64], lengths| {
        number(run(&TABLE, delay, 9, arrivals, lengths).map(|_| ()))
    };
    let longest = vec![0; 4_096];
    let too_long = vec![1_000_001; 4_097];
    assert_eq!(outcome(1, &longest, [4_096; 3]), 0);
    assert_eq!(outcome(65, &too_long, [0; 3]), 6);
    assert_eq!(outcome(1, &too_long, [4_097; 3]), 10);
    assert_eq!(outcome(1, &too_long, [0; 3]), 10);
    assert_eq!(outcome(1, &[5, 0], [2, 2, 2]), 0);
    for lengths in [[1, 2, 2], [2, 3, 2], [2, 2, 0]] {
        assert_eq!(outcome(1, &[5, 1_000_001], lengths), 11);
    }
    assert_eq!(outcome(1, &[5, 1_000_001], [2; 3]), 8);
    assert_eq!(outcome(1, &[5, 1_000_000], [2; 3]), 0);
}
