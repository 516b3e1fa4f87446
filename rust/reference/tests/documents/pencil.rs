//! Document 02, 2.14: all short traces in order, and the pencil version beside the whole-trace run on
//! each of them.

use reference::layout::{NO_BUFFER, NO_DELAY};
use reference::refusal::Refusal;
use reference::tiny::TABLES;
use reference::trace::Lists;
use reference::{pencil, short_traces, trace};

const LIMITS: [(u64, u64); 6] = [
    (0, 9),
    (1, 0),
    (1, 3),
    (2, NO_BUFFER as u64),
    (64, 2),
    (NO_DELAY as u64, 2),
];

fn listed(slots: u64) -> Vec<Vec<u64>> {
    let (width, count) = (slots as usize, 4_usize.pow(slots as u32));
    let list = short_traces::list(slots, width * count).expect("an accepted list");
    let trace = |number: usize| list[number * width..(number + 1) * width].to_vec();
    (0..count).map(trace).collect()
}

#[test]
fn the_lists_by_hand() {
    assert_eq!(listed(0), [[0; 0]; 1]);
    assert_eq!(listed(1), [[0], [1], [2], [3]]);
    let two = listed(2);
    assert_eq!(two[..5], [[0, 0], [0, 1], [0, 2], [0, 3], [1, 0]]);
    assert_eq!(two[15], [3, 3]);
}

/// Each listed one is such a trace, each such trace is listed, none twice, in the dictionary's order.
#[test]
fn every_trace_once_and_in_order() {
    for slots in 0..=5 {
        let traces = listed(slots);
        let rising = traces.windows(2).all(|pair| pair[0] < pair[1]);
        let in_range = |trace: &Vec<u64>| trace.iter().all(|&count| count <= 3);
        assert!(rising && traces.iter().all(in_range), "{slots}");
        assert_eq!(traces.len(), 4_usize.pow(slots as u32));
    }
}

#[test]
fn the_run_on_every_listed_trace() {
    for (table, (delay, buffer)) in TABLES.iter().flat_map(|t| LIMITS.map(|l| (*t, l))) {
        for arrivals in (0..=5).flat_map(listed) {
            let lengths = [arrivals.len(); 3];
            let by_pencil = pencil::run(table, delay, buffer, &arrivals, lengths);
            let by_run = trace::run(table, delay, buffer, &arrivals, lengths);
            assert_eq!(by_pencil, by_run, "{table:?} {delay} {buffer} {arrivals:?}");
        }
    }
}

/// The row of docs/PENCIL.md.
#[test]
fn a_row_of_the_document() {
    let lists = pencil::run(&[0, 2, 3], 1, 9, &[5, 0, 4, 0], [4; 3]);
    let by_hand = Lists {
        admitted: vec![3, 0, 3, 0],
        dropped: vec![2, 0, 1, 0],
        departed: vec![2, 1, 2, 1],
    };
    assert_eq!(lists, Ok(by_hand));
}

#[test]
fn refusals_in_their_order() {
    for (slots, length, number) in [
        (6, 0, 24),
        (6, 24_576, 24),
        (u64::MAX, 0, 24),
        (5, 5_119, 11),
        (5, 5_121, 11),
        (0, 1, 11),
        (1, 0, 11),
    ] {
        let found = short_traces::list(slots, length);
        assert_eq!(found.map_err(Refusal::number), Err(number));
    }
    let none = (NO_DELAY.into(), NO_BUFFER.into());
    for (table, (delay, buffer), slots, length, number) in [
        (&[0][..], (65, 1_000_001), 6, 0, 1),
        (&[0, 2], (65, 1_000_001), 6, 0, 6),
        (&[0, 2], (64, 1_000_001), 6, 0, 7),
        (&[0, 2], none, 6, 0, 23),
        (&[0, 2], (64, 9), 6, 0, 24),
        (&[0, 2], (64, 9), 4_097, 0, 24),
        (&[0, 2], (64, 9), 5, 6, 11),
        (&[0, 2], (64, 9), 5, 5, 8),
    ] {
        let arrivals = vec![1_000_001; slots];
        let found = pencil::run(table, delay, buffer, &arrivals, [length; 3]);
        assert_eq!(found.map_err(Refusal::number), Err(number));
    }
}
