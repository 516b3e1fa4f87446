//! Anyone's rows: each rule by hand, and on every tiny pair beside the permitted ones.

use reference::closure::by_recursion;
use reference::judge::{Broken, Rule, judge};
use reference::layout::{NO_BUFFER, NO_DELAY};
use reference::permitted::{Pair, Terms, totals};
use reference::refusal::Refusal;
use reference::regulator::Limits;
use reference::tiny::traces;
use reference::trace;

const TABLES: [&[u64]; 6] = [
    &[0, 0],
    &[0, 1],
    &[0, 1, 3],
    &[0, 2, 2],
    &[0, 0, 1, 3],
    &[0, 1, 1, 1],
];
const LIMITS: [(u64, u64); 7] = [
    (0, 1),
    (1, 0),
    (1, 2),
    (2, 1),
    (1, NO_BUFFER as u64),
    (NO_DELAY as u64, 0),
    (NO_DELAY as u64, 2),
];

fn cases() -> impl Iterator<Item = (&'static [u64], (u64, u64))> {
    TABLES
        .into_iter()
        .flat_map(|table| LIMITS.map(|limits| (table, limits)))
}

/// Arrivals, admitted, departed.
type Rows<'a> = [&'a [u64]; 3];

fn judged(
    table: &[u64],
    (delay, buffer): (u64, u64),
    [arrivals, admitted, departed]: Rows<'_>,
) -> Option<Broken> {
    judge(table, delay, buffer, arrivals, admitted, departed).expect("an accepted question")
}

/// Document 01's row: admitted 3,0,3,0 and departed 2,1,2,1 under table 0,2,3, d 1, q 9.
#[test]
fn each_rule_by_hand() {
    let row = |admitted: &[u64], departed: &[u64]| {
        let rows = [&[5, 0, 4, 0][..], admitted, departed];
        let broken = judged(&[0, 2, 3], (1, 9), rows);
        broken.map(|broken| (broken.rule, broken.slot, broken.window))
    };
    assert_eq!(row(&[3, 0, 3, 0], &[2, 1, 2, 1]), None);
    assert_eq!(row(&[2, 0, 1, 0], &[1, 1, 0, 1]), None);
    let broken = row(&[3, 1, 3, 0], &[2, 1, 2, 1]);
    assert_eq!(broken, Some((Rule::Arrivals, 2, 0)));
    let broken = row(&[3, 0, 0, 0], &[2, 1, 1, 0]);
    assert_eq!(broken, Some((Rule::Departures, 3, 0)));
    let broken = row(&[3, 0, 3, 0], &[3, 0, 3, 0]);
    assert_eq!(broken, Some((Rule::Envelope, 1, 1)));
    let broken = row(&[4, 0, 3, 0], &[2, 2, 2, 1]);
    assert_eq!(broken, Some((Rule::Envelope, 2, 2)));
    let broken = row(&[4, 0, 3, 0], &[2, 1, 2, 1]);
    assert_eq!(broken, Some((Rule::Delay, 2, 0)));
    // The deadline of slot 4 lies beyond the trace, that of slot 3 in it.
    assert_eq!(
        row(&[3, 0, 4, 0], &[2, 1, 2, 2]),
        Some((Rule::Envelope, 4, 2))
    );
    assert_eq!(row(&[3, 0, 4, 0], &[2, 1, 2, 1]), Some((Rule::Delay, 4, 0)));
}

/// q 4 before departures: 6 packets are too many in the first slot, and 4 + 4 of which 3 left.
#[test]
fn the_buffer_by_hand() {
    let row = |admitted: [u64; 2], departed: [u64; 2]| {
        let rows = [&[6, 6][..], &admitted, &departed];
        let broken = judged(&[0, 4], (NO_DELAY.into(), 4), rows);
        broken.map(|broken| (broken.rule, broken.slot))
    };
    assert_eq!(row([4, 4], [4, 4]), None);
    assert_eq!(row([6, 4], [4, 4]), Some((Rule::Buffer, 1)));
    assert_eq!(row([4, 4], [3, 4]), Some((Rule::Buffer, 2)));
    assert_eq!(row([4, 3], [3, 4]), None);
}

/// The first slot counts before the first rule.
#[test]
fn the_first_slot_and_in_it_the_first_rule() {
    let rows = [&[1, 1, 1][..], &[1, 2, 9], &[0, 9, 9]];
    let broken = judged(&[0, 1], (0, 9), rows).expect("a broken rule");
    assert_eq!((broken.rule, broken.slot), (Rule::Delay, 1));
    let rows = [&[1, 1, 1][..], &[1, 2, 9], &[1, 9, 9]];
    let broken = judged(&[0, 1], (0, 9), rows).expect("a broken rule");
    assert_eq!((broken.rule, broken.slot), (Rule::Arrivals, 2));
}

/// Every pair of every trace of up to two slots, and of two traces of three.
fn for_each_tiny(mut work: impl FnMut(&[u64], (u64, u64), Rows<'_>)) {
    let shorter: Vec<Vec<u64>> = (0..=2).flat_map(traces).collect();
    let all = [&shorter[..], &[vec![3, 3, 3], vec![2, 0, 3]]].concat();
    for (table, limits) in cases() {
        for arrivals in &all {
            let slots = arrivals.len() as u32;
            for admitted in traces(slots) {
                for departed in traces(slots) {
                    work(table, limits, [arrivals, &admitted, &departed]);
                }
            }
        }
    }
}

/// Permitted by the judge exactly if the totals are a permitted pair, over all windows and under f.
#[test]
fn permitted_are_the_permitted_pairs() {
    let mut permitted = 0;
    for_each_tiny(|table, limits, rows| {
        let [arrivals, admitted, departed] = rows;
        let terms = Terms {
            f: &by_recursion(table, arrivals.len()),
            limits: Limits::from_numbers(limits.0, limits.1).expect("accepted limits"),
            arrived: &totals(arrivals),
        };
        let pair = Pair {
            admitted: totals(admitted),
            departed: totals(departed),
        };
        let broken = judged(table, limits, rows);
        let case = format!("{table:?} {limits:?} {rows:?}");
        assert_eq!(broken.is_none(), terms.permit(&pair), "{case}");
        permitted += usize::from(broken.is_none());
    });
    assert!(permitted > 1_000, "{permitted}");
}

/// The table's entries and f break at the same slot and window.
#[test]
fn the_closed_table_gives_the_same_verdict() {
    for_each_tiny(|table, limits, rows| {
        let closed = by_recursion(table, table.len() - 1);
        let broken = judged(table, limits, rows);
        assert_eq!(broken, judged(&closed, limits, rows), "{table:?} {rows:?}");
    });
}

#[test]
fn ours_is_permitted() {
    for (table, (delay, buffer)) in cases() {
        for arrivals in (0..=4).flat_map(traces) {
            let ours = trace::run(table, delay, buffer, &arrivals, [arrivals.len(); 3]);
            let ours = ours.expect("an accepted run");
            let rows = [&arrivals[..], &ours.admitted, &ours.departed];
            assert_eq!(judged(table, (delay, buffer), rows), None, "{rows:?}");
        }
    }
}

#[test]
fn refusals_in_their_order() {
    let none = (NO_DELAY.into(), NO_BUFFER.into());
    for (table, (delay, buffer), slots, lengths, number) in [
        (&[0][..], (65, 1_000_001), 4_097, [0, 0], 1),
        (&[0, 2], (65, 1_000_001), 4_097, [0, 0], 6),
        (&[0, 2], (64, 1_000_001), 4_097, [0, 0], 7),
        (&[0, 2], none, 4_097, [0, 0], 23),
        (&[0, 2], (64, 9), 4_097, [0, 0], 10),
        (&[0, 2], (64, 9), 3, [3, 4], 11),
        (&[0, 2], (64, 9), 3, [2, 3], 11),
        (&[0, 2], (64, 9), 3, [3, 3], 8),
    ] {
        let [admitted, departed] = lengths.map(|length| vec![u64::from(u32::MAX); length]);
        let arrivals = vec![1_000_001; slots];
        let found = judge(table, delay, buffer, &arrivals, &admitted, &departed);
        assert_eq!(found.map_err(Refusal::number), Err(number));
    }
}
