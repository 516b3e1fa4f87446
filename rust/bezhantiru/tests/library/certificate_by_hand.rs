//! Rows and links checked that are written out: document 01's row with each of its links bent, certified
//! rows that are not ours, limits that are none, and the largest numbers at every place.

use bezhantiru::{NO_BUFFER, NO_DELAY};

use crate::anyone::Asked;
use crate::certificates::{Claimed, found};

fn claimed(limits: (u32, u32), arrivals: &[u32], rows: [&[u32]; 2], links: [&[u32]; 3]) -> Claimed {
    Claimed {
        rows: Asked {
            table: vec![0, 2, 3],
            limits,
            arrivals: arrivals.to_vec(),
            admitted: rows[0].to_vec(),
            departed: rows[1].to_vec(),
        },
        links: links.map(<[u32]>::to_vec),
    }
}

fn said(claimed: &Claimed) -> (u32, u32) {
    let found = claimed.check();
    assert_eq!(found, claimed.by_reference(), "{claimed:?}");
    assert_eq!((found.number, found.window), (0, 0), "{claimed:?}");
    (found.rule, found.slot)
}

/// Document 01's row, and each of its links bent.
#[test]
fn by_hand() {
    let (from, by, gone) = ([0, 1, 0, 3], [2, 1, 2, 1], [0; 4]);
    let ours = claimed(
        (1, 9),
        &[5, 0, 4, 0],
        [&[3, 0, 3, 0], &[2, 1, 2, 1]],
        [&from, &by, &gone],
    );
    assert_eq!(found(&ours.rows, [4; 3]).lists, ours.links);
    assert_eq!(said(&ours), (0, 0));
    for (list, place, number, wanted) in [
        (0, 1, 0, (6, 2)),
        (0, 1, 2, (6, 2)),
        (0, 2, 1, (6, 3)),
        (1, 0, 1, (6, 1)),
        (1, 2, 3, (6, 3)),
        (1, 3, 2, (6, 4)),
        (2, 0, 1, (7, 1)),
        (2, 1, 2, (0, 0)),
        (2, 2, 1, (7, 3)),
        (2, 2, 3, (7, 3)),
        (2, 3, 4, (0, 0)),
        (2, 3, 5, (7, 4)),
    ] {
        let mut bent = ours.clone();
        bent.links[list][place] = number;
        assert_eq!(said(&bent), wanted, "{bent:?}");
    }
    // One packet fewer in a row is permitted, and no certificate.
    let mut fewer = ours.clone();
    fewer.rows.admitted[2] = 2;
    fewer.rows.departed[3] = 0;
    assert_eq!(said(&fewer), (6, 3));
    let mut later = ours;
    later.rows.departed = vec![2, 1, 1, 2];
    assert_eq!(said(&later), (7, 3));
}

/// The one slot's deadline lies beyond the trace: 5 admitted are certified, our 3 are not, though f(2) is
/// 3.
#[test]
fn certified_rows_that_are_not_ours() {
    let theirs = claimed((1, 9), &[5], [&[5], &[2]], [&[0], &[1], &[0]]);
    assert_eq!(said(&theirs), (0, 0));
    for mark in 0..=4 {
        let ours = claimed((1, 9), &[5], [&[3], &[2]], [&[0], &[mark], &[0]]);
        assert_eq!(said(&ours), (6, 1), "{mark}");
    }
    let links = found(&theirs.rows, [1; 3]).lists;
    assert_eq!(links, [[0], [0], [0]]);
}

/// A limit that is none marks no link, though its number, taken as one, would fit.
#[test]
fn a_limit_that_is_none() {
    let nothing = |limits, mark| claimed(limits, &[0], [&[0], &[0]], [&[0], &[mark], &[1]]);
    for (limits, mark, wanted) in [
        ((NO_DELAY, 0), 1, (0, 0)),
        ((NO_DELAY, 0), 2, (6, 1)),
        ((NO_DELAY, 0), 3, (0, 0)),
        ((0, NO_BUFFER), 1, (0, 0)),
        ((0, NO_BUFFER), 3, (6, 1)),
    ] {
        assert_eq!(said(&nothing(limits, mark)), wanted, "{limits:?} {mark}");
    }
    // f(1) + 4,294,967,295 is 0 in 32 bits where f(1) is 1.
    let mut wrapping = nothing((0, NO_BUFFER), 3);
    wrapping.rows.table = vec![0, 1];
    wrapping.rows.arrivals = vec![0, 0];
    wrapping.rows.admitted = vec![0, 0];
    wrapping.rows.departed = vec![0, 0];
    wrapping.links = [vec![0, 0], vec![1, 3], vec![1, 2]];
    assert_eq!(said(&wrapping), (6, 2));
}

/// The largest numbers of 32 bits wherever a number stands, in traces of nothing and of the most.
#[test]
fn forged_numbers() {
    for slots in [1_usize, 2, 64, 4_096] {
        for arrivals in [0, 1_000_000] {
            let limits = (64, 1_000_000);
            let full = vec![arrivals; slots];
            let links = [vec![0; slots], vec![1; slots], (1..=slots as u32).collect()];
            let mut good = claimed(
                limits,
                &full,
                [&full, &full],
                links.each_ref().map(|l| &l[..]),
            );
            good.rows.table = vec![0, 1_000_000];
            assert_eq!(said(&good), (0, 0));
            for place in [0, slots / 2, slots - 1] {
                for number in [u32::MAX, u32::MAX - 1, 1 << 31, 4_097, 4_160, 4_161] {
                    for list in 0..3 {
                        let mut forged = good.clone();
                        forged.links[list][place] = number;
                        let link = if list == 2 { 7 } else { 6 };
                        assert_eq!(said(&forged), (link, place as u32 + 1), "{list} {number}");
                    }
                }
                let mut forged = good.clone();
                forged.rows.admitted[place] = u32::MAX;
                assert_eq!(said(&forged), (1, place as u32 + 1));
                forged.rows.admitted[place] = arrivals;
                forged.rows.departed[place] = u32::MAX;
                assert_eq!(said(&forged), (2, place as u32 + 1));
            }
            let mut all = good.clone();
            all.links = [(); 3].map(|()| vec![u32::MAX; slots]);
            assert_eq!(said(&all), (6, 1));
            all.rows.admitted.fill(u32::MAX);
            all.rows.departed.fill(u32::MAX);
            assert_eq!(said(&all), (1, 1));
        }
    }
}

/// A trace without slots is certified by empty lists.
#[test]
fn no_slots() {
    let none = claimed((1, 9), &[], [&[], &[]], [&[], &[], &[]]);
    assert_eq!(said(&none), (0, 0));
    assert_eq!(found(&none.rows, [0; 3]).outcome, Ok(()));
}
