//! What is printed, word by word.

use commands::rows::Rows;
use reference::layout::{NO_BUFFER, NO_DELAY, StreamFile};

use super::program::Beside;

fn said(file: &StreamFile, admitted: &[u32], departed: &[u32]) -> String {
    let rows = Rows {
        admitted: admitted.to_vec(),
        departed: departed.to_vec(),
    };
    let beside = Beside::of(file, &rows);
    beside.expect("an accepted stream").to_string()
}

/// Document 01's row with q 4, in which ours admits 3,0,3,0 and loses 3: its rows with a number or two
/// changed.
#[test]
fn every_verdict() {
    let row = StreamFile::of_arrivals(&[0, 2, 3], (1, 4), &[5, 0, 4, 0]);
    let verdict = |admitted: [u32; 4], departed: [u32; 4]| {
        let text = said(&row, &admitted, &departed);
        text.lines().next().unwrap_or_default().to_owned()
    };
    for (admitted, departed, wanted) in [
        (
            [3, 0, 3, 0],
            [2, 1, 2, 1],
            "permitted: every rule is kept in slots 1 to 4",
        ),
        (
            [3, 1, 3, 0],
            [2, 1, 2, 1],
            "breaks the arrivals: 1 admitted in slot 2, 0 arrive",
        ),
        (
            [3, 0, 2, 0],
            [2, 1, 2, 1],
            "breaks the departures: 6 departed by slot 4, 5 were admitted",
        ),
        (
            [3, 0, 3, 0],
            [3, 0, 2, 1],
            "breaks the envelope: 3 departed in slot 1, 2 may",
        ),
        (
            [4, 0, 3, 0],
            [2, 2, 2, 1],
            "breaks the envelope: 4 departed in slots 1 to 2, 3 may",
        ),
        (
            [5, 0, 3, 0],
            [2, 1, 2, 1],
            "breaks the buffer limit: 5 held before the departures of slot 1, 4 may be",
        ),
        (
            [3, 0, 4, 0],
            [2, 1, 2, 1],
            "breaks the delay limit: 7 admitted by slot 3 and due by slot 4, 6 departed",
        ),
    ] {
        assert_eq!(verdict(admitted, departed), wanted);
    }
}

#[test]
fn under_the_premises() {
    let row = StreamFile::of_arrivals(&[0, 2, 3], (1, 4), &[5, 0, 4, 0]);
    assert_eq!(
        said(&row, &[3, 0, 3, 0], &[2, 1, 2, 1]),
        "permitted: every rule is kept in slots 1 to 4
losses are the same by every slot
lost by slot 4: 3 ours, 3 theirs
no packet lost that need not have been
"
    );
    assert_eq!(
        said(&row, &[3, 0, 1, 0], &[2, 1, 1, 0]),
        "permitted: every rule is kept in slots 1 to 4
losses first differ by slot 3: 3 ours, 5 theirs
lost by slot 4: 3 ours, 5 theirs
2 packets lost that need not have been
"
    );
    let empty = StreamFile::of_arrivals(&[0, 1], (0, 1), &[]);
    assert_eq!(
        said(&empty, &[], &[]),
        "permitted: there are no slots
losses are the same by every slot
lost by slot 0: 0 ours, 0 theirs
no packet lost that need not have been
"
    );
}

#[test]
fn not_permitted() {
    let row = StreamFile::of_arrivals(&[0, 2, 3], (1, 4), &[5, 0, 4, 0]);
    assert_eq!(
        said(&row, &[3, 0, 3, 9], &[2, 1, 2, 1]),
        "breaks the arrivals: 9 admitted in slot 4, 0 arrive
losses first differ by slot 4: 3 ours, -6 theirs
lost by slot 4: 3 ours, -6 theirs
not permitted: a loss below ours shows nothing
"
    );
    assert_eq!(
        said(&row, &[1, 0, 0, 0], &[0, 0, 0, 0]),
        "breaks the delay limit: 1 admitted by slot 1 and due by slot 2, 0 departed
losses first differ by slot 1: 2 ours, 4 theirs
lost by slot 4: 3 ours, 8 theirs
5 packets lost that need not have been
not permitted: a loss below ours shows nothing
"
    );
}

/// Table 0,1 and d 2, three packets in each of three slots: who knows that the stream ends admits all
/// of slots 2 and 3, whose deadlines lie beyond it.
#[test]
fn without_the_premises() {
    let short = StreamFile::of_arrivals(&[0, 1], (2, NO_BUFFER), &[3, 3, 3]);
    assert_eq!(
        said(&short, &[3, 3, 3], &[1, 1, 1]),
        "permitted: every rule is kept in slots 1 to 3
losses first differ by slot 2: 2 ours, 0 theirs
lost by slot 3: 4 ours, 0 theirs
the stream does not end in 2 slots without arrivals: the deadlines of slots 2 to 3 lie beyond it
can be concluded: nobody permitted has lost less than ours by slot 1 or has let more packets go than ours by any slot
cannot be concluded: that nobody loses less than ours from slot 2 on; who knows the end may admit there what would miss its deadline
"
    );
    assert_eq!(
        said(&short, &[3, 0, 0], &[1, 1, 1]),
        "permitted: every rule is kept in slots 1 to 3
losses first differ by slot 2: 2 ours, 3 theirs
lost by slot 3: 4 ours, 6 theirs
at least 2 packets lost that need not have been
the stream does not end in 2 slots without arrivals: the deadlines of slots 2 to 3 lie beyond it
can be concluded: nobody permitted has lost less than ours by slot 1 or has let more packets go than ours by any slot
cannot be concluded: that nobody loses less than ours from slot 2 on; who knows the end may admit there what would miss its deadline
"
    );
    let shorter = StreamFile::of_arrivals(&[0, 1], (2, NO_BUFFER), &[0, 0]);
    assert!(!said(&shorter, &[0, 0], &[0, 0]).contains("concluded"));
    let shortest = StreamFile::of_arrivals(&[0, 1], (2, NO_BUFFER), &[0]);
    assert!(said(&shortest, &[0], &[0]).ends_with(
        "the stream does not end in 2 slots without arrivals: the deadlines of slots 1 to 1 lie beyond it
can be concluded: nobody permitted has let more packets go than ours by any slot
cannot be concluded: that nobody loses less than ours from slot 1 on; who knows the end may admit there what would miss its deadline
"
    ));
    let no_delay = StreamFile::of_arrivals(&[0, 1], (NO_DELAY, 1), &[3]);
    assert!(!said(&no_delay, &[1], &[1]).contains("concluded"));
}
