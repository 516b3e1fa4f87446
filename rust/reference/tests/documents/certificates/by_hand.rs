//! Links of a few traces by hand, flaws in each of them, and what is refused.

use reference::certificate::{Certificate, check, find};
use reference::layout::{NO_BUFFER, NO_DELAY};
use reference::refusal::Refusal;

use super::Case;

const NO_DELAY_LIMIT: u64 = NO_DELAY as u64;
const NO_BUFFER_LIMIT: u64 = NO_BUFFER as u64;

fn links(admitted_from: &[u64], admitted_by: &[u64], departed_from: &[u64]) -> Certificate {
    Certificate {
        admitted_from: admitted_from.to_vec(),
        admitted_by: admitted_by.to_vec(),
        departed_from: departed_from.to_vec(),
    }
}

/// Document 01's row: admitted 3,0,3,0 and departed 2,1,2,1. Nothing arrives in slots 2 and 4; slots 1
/// and 3 have f(2) = 3 and f(4) = 6 by their deadlines.
#[test]
fn a_row_of_the_document() {
    let case = Case::new(&[0, 2, 3], (1, 9), &[5, 0, 4, 0]);
    let found = case.found();
    assert_eq!(found, links(&[0, 1, 0, 3], &[2, 1, 2, 1], &[0; 4]));
    let rows = [&[3, 0, 3, 0][..], &[2, 1, 2, 1]];
    assert_eq!(case.flaw(rows, &found), None);
}

/// X and Y are 4, 8, 12, 16.
#[test]
fn the_six_packet_burst() {
    let table = &[0, 4, 8, 12, 16, 17, 18];
    let case = Case::new(table, (NO_DELAY_LIMIT, 4), &[6; 4]);
    assert_eq!(case.found(), links(&[0; 4], &[3; 4], &[0; 4]));
}

/// The deadline of the one slot lies beyond the trace: ours admits 3, nothing certifies that, and the
/// pair that admits all 5 is certified.
#[test]
fn certified_rows_that_are_not_ours() {
    let case = Case::new(&[0, 2, 3], (1, 9), &[5]);
    assert_eq!(case.ours().admitted, [0, 3]);
    assert_eq!(case.found(), links(&[0], &[0], &[0]));
    assert_eq!(case.flaw([&[5], &[2]], &links(&[0], &[1], &[0])), None);
    // U(1) = 3 is f(2), a delay link's amount, which is not usable here.
    let by_delay = case.flaw([&[3], &[2]], &links(&[0], &[2], &[0]));
    assert_eq!(by_delay, Some([6, 1, 0]));
}

/// Ours is 3,0 / 1,1. Slot 2 has an arrivals link from slot 1, which has none; 4,0 / 1,1 is permitted
/// and admits more by both.
#[test]
fn a_link_from_a_slot_without_one_proves_nothing() {
    let case = Case::new(&[0, 1], (2, NO_BUFFER_LIMIT), &[4, 0]);
    assert_eq!(case.ours().admitted, [0, 3, 3]);
    assert_eq!(case.found(), links(&[0, 1], &[0, 1], &[0, 0]));
    let theirs = links(&[0, 0], &[1, 1], &[0, 0]);
    assert_eq!(case.flaw([&[4, 0], &[1, 1]], &theirs), None);
}

/// Each way in which a link fails in document 01's row, 6 before 7 in a slot, the first slot before
/// both, and any broken rule before any link.
#[test]
fn flaws_by_hand() {
    let case = Case::new(&[0, 2, 3], (1, 9), &[5, 0, 4, 0]);
    let (admitted, departed) = ([3, 0, 3, 0], [2, 1, 2, 1]);
    let flaw = |links: &Certificate| case.flaw([&admitted, &departed], links);
    let found = case.found();
    assert_eq!(flaw(&found), None);
    let with = |spoil: fn(&mut Certificate)| {
        let mut spoilt = found.clone();
        spoil(&mut spoilt);
        flaw(&spoilt)
    };
    // A first slot that is not below the slot; the slot itself would have amount 0 by arrivals.
    assert_eq!(with(|links| links.admitted_from[1] = 2), Some([6, 2, 0]));
    assert_eq!(with(|links| links.admitted_from[3] = 5), Some([6, 4, 0]));
    let far = with(|links| links.admitted_from[3] = u64::from(u32::MAX));
    assert_eq!(far, Some([6, 4, 0]));
    // A mark that there is not, and one of a limit that bounds nothing there.
    assert_eq!(with(|links| links.admitted_by[1] = 0), Some([6, 2, 0]));
    assert_eq!(with(|links| links.admitted_by[1] = 4), Some([6, 2, 0]));
    assert_eq!(with(|links| links.admitted_by[0] = 3), Some([6, 1, 0]));
    // V(2) = 3 is U(0) + f(2) and, with nothing to wait for, U(2); it is not U(1) + f(1).
    assert_eq!(with(|links| links.departed_from[1] = 2), None);
    assert_eq!(with(|links| links.departed_from[1] = 1), Some([7, 2, 0]));
    assert_eq!(with(|links| links.departed_from[1] = 3), Some([7, 2, 0]));
    // V(3) = 5 is V(1) + f(2), but not U(1) + f(2).
    assert_eq!(with(|links| links.departed_from[2] = 1), Some([7, 3, 0]));
    let both = with(|links| {
        links.departed_from[2] = 9;
        links.admitted_by[2] = 9;
    });
    assert_eq!(both, Some([6, 3, 0]));
    let earlier = with(|links| {
        links.departed_from[1] = 9;
        links.admitted_by[2] = 9;
    });
    assert_eq!(earlier, Some([7, 2, 0]));
    let broken = case.flaw(
        [&admitted, &[2, 1, 2, 2]],
        &links(&[9; 4], &[9; 4], &[9; 4]),
    );
    assert_eq!(broken, Some([2, 4, 0]));
}

/// Rows that admit less than a link says are permitted, and no certificate.
#[test]
fn fewer_than_the_amount_is_not_the_amount() {
    let case = Case::new(&[0, 2, 3], (1, 9), &[5, 0, 4, 0]);
    let found = case.found();
    let flaw = case.flaw([&[3, 0, 2, 0], &[2, 1, 2, 0]], &found);
    assert_eq!(flaw, Some([6, 3, 0]));
    let flaw = case.flaw([&[3, 0, 3, 0], &[2, 1, 1, 2]], &found);
    assert_eq!(flaw, Some([7, 3, 0]));
}

#[test]
fn an_empty_trace_is_certified() {
    let case = Case::new(&[0, 2, 3], (1, 9), &[]);
    assert_eq!(case.found(), Certificate::default());
    assert_eq!(case.flaw([&[], &[]], &Certificate::default()), None);
}

#[test]
fn refusals_in_their_order() {
    let none = (NO_DELAY_LIMIT, NO_BUFFER_LIMIT);
    for (table, (delay, buffer), slots, lengths, number) in [
        (&[0][..], (65, 1_000_001), 4_097, [0; 5], 1),
        (&[0, 2], (65, 1_000_001), 4_097, [0; 5], 6),
        (&[0, 2], (64, 1_000_001), 4_097, [0; 5], 7),
        (&[0, 2], none, 4_097, [0; 5], 23),
        (&[0, 2], (64, 9), 4_097, [0; 5], 10),
        (&[0, 2], (64, 9), 3, [3, 3, 4, 3, 3], 11),
        (&[0, 2], (64, 9), 3, [3, 3, 3, 2, 3], 11),
        (&[0, 2], (64, 9), 3, [3, 3, 3, 3, 0], 11),
        (&[0, 2], (64, 9), 3, [3; 5], 8),
    ] {
        let lists = lengths.map(|length| vec![u64::from(u32::MAX); length]);
        let [admitted, departed, from, by, gone] = &lists;
        let arrivals = vec![1_000_001; slots];
        let found = find(
            table,
            delay,
            buffer,
            &arrivals,
            [from.len(), by.len(), gone.len()],
        );
        assert_eq!(found.map_err(Refusal::number), Err(number));
        let links = links(from, by, gone);
        let rows = [&admitted[..], departed];
        let flaw = check(table, delay, buffer, &arrivals, rows, &links);
        assert_eq!(flaw.map_err(Refusal::number), Err(number));
    }
    for lengths in [[2, 3], [3, 4]] {
        let [admitted, departed] = lengths.map(|length| vec![0; length]);
        let links = links(&[0; 3], &[1; 3], &[0; 3]);
        let flaw = check(&[0, 2], 64, 9, &[0; 3], [&admitted, &departed], &links);
        assert_eq!(flaw.map_err(Refusal::number), Err(11));
    }
}
