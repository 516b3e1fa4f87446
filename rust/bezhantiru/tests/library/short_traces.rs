//! Document 02, 2.14: every trace of 0 to 5 slots with 0 to 3 arrivals in each, a single time each, by
//! dictionary order of the counts; and what is refused of the list.

use bezhantiru::{Refusal, boundary, pencil};
use reference::short_traces;
use tests_program::cases::wide;

use crate::one_list::{lend, rubbish};

/// The boundary's answer over a list of this length, which the wrapper has to give too, and the list.
fn list(slots: u32, length: usize) -> (u32, Vec<u32>) {
    let found = lend(length, |counts| boundary::short_traces(slots, counts));
    let wrapped = lend(length, |counts| pencil::short_traces(slots, counts));
    let number = wrapped.0.err().map_or(0, Refusal::number);
    assert!((number, &wrapped.1) == (found.0, &found.1), "{slots}");
    found
}

fn length(slots: u32) -> usize {
    slots as usize * 4_usize.pow(slots)
}

#[test]
fn the_reference_s_list() {
    for slots in 0..=5 {
        let (number, counts) = list(slots, length(slots));
        let wanted = short_traces::list(slots.into(), length(slots));
        assert_eq!(number, 0);
        assert_eq!(Ok(wide(&counts)), wanted, "{slots}");
    }
}

/// As many traces as there are, each above the one before, and no count above 3: so each is listed, and
/// none twice.
#[test]
fn every_trace_once_and_in_order() {
    for slots in 1..=5 {
        let (_, counts) = list(slots, length(slots));
        let traces: Vec<&[u32]> = counts.chunks(slots as usize).collect();
        assert_eq!(traces.len(), 4_usize.pow(slots));
        assert!(traces.is_sorted_by(|one, next| one < next), "{slots}");
        assert!(counts.iter().all(|&count| count <= 3), "{slots}");
    }
}

/// Slots and lengths in every combination, with the lengths of all short lists and one beside.
#[test]
fn refusals() {
    let lengths: Vec<usize> = (0..=6).map(length).collect();
    let near = |length: &usize| [length.saturating_sub(1), *length, length + 1];
    for slots in [0, 1, 2, 3, 4, 5, 6, 7, 1 << 30, 1 << 31, u32::MAX] {
        for lent in lengths.iter().flat_map(near) {
            let wanted = match slots {
                6.. => 24,
                _ if lent != length(slots) => 11,
                _ => 0,
            };
            let (number, counts) = list(slots, lent);
            assert_eq!(number, wanted, "{slots} slots, {lent} numbers");
            let by_reference = short_traces::list(slots.into(), lent);
            let refused = by_reference.err().map_or(0, |refusal| refusal.number());
            assert_eq!(number, refused.into(), "{slots} slots, {lent} numbers");
            if number != 0 {
                assert!(counts == rubbish(lent), "{slots} slots, {lent} numbers");
            }
        }
    }
}
