//! Text and file say the same, and mistakes are named by their line.

use reference::layout::{NO_BUFFER, NO_DELAY, StreamFile};
use streamtext::{parse, show};

const TEXT: &str = "table 0 2 3\ndelay 1\nbuffer 9\nslots 4\n1 5\n3 4\n";

fn file([delay, buffer]: [u32; 2], table: &[u32], bursts: &[(u32, u32)]) -> StreamFile {
    StreamFile::of(table, (delay, buffer), 4, bursts.iter().copied())
}

fn problem(text: &str) -> String {
    parse(text).expect_err("a mistake").to_string()
}

#[test]
fn text_becomes_a_file_and_text_again() {
    let parsed = parse(TEXT).expect("a stream");
    assert_eq!(parsed, file([1, 9], &[0, 2, 3], &[(1, 5), (3, 4)]));
    assert_eq!(show(&parsed), TEXT);
}

#[test]
fn comments_blanks_and_other_orders_change_nothing() {
    let text = "# a stream\n\n slots  4 # slots\nbuffer 9\n\tdelay 1\r\ntable 0 2 3\n1 5\n\n3 4";
    assert_eq!(parse(text), parse(TEXT));
}

#[test]
fn files_come_back_from_their_text() {
    let largest = u32::MAX;
    for file in [
        file([NO_DELAY, NO_BUFFER], &[0, 0], &[]),
        file([65, 1_000_001], &[0], &[(0, 0)]),
        file(
            [254, largest - 1],
            &[9, 5, largest],
            &[(4, largest), (4, 0), (largest, 1)],
        ),
        file([256, 0], &(0..70).collect::<Vec<u32>>(), &[(2, 1)]),
    ] {
        let bytes = file.to_bytes();
        let read = StreamFile::from_bytes(&bytes).expect("the right length");
        assert_eq!(parse(&show(&read)).expect("its own text").to_bytes(), bytes);
    }
}

#[test]
fn none_is_the_limit_left_out() {
    let text = "table 0 1\ndelay none\nbuffer none\nslots 0\n";
    let header = parse(text).expect("a stream").header;
    assert_eq!((header.delay, header.buffer), (255, 4_294_967_295));
    assert_eq!(show(&parse(text).expect("a stream")), text);
}

#[test]
fn mistakes_are_named_by_their_line() {
    let no_number = "is no whole number from 0 to 4294967295";
    assert_eq!(
        problem("table\n"),
        "line 1: a table needs its entry for window 0 at least"
    );
    assert_eq!(
        problem("#\ntable 0 x\n"),
        format!("line 2: `x` {no_number}")
    );
    assert_eq!(problem("delay -1"), format!("line 1: `-1` {no_number}"));
    assert_eq!(problem("delay +1"), format!("line 1: `+1` {no_number}"));
    assert_eq!(
        problem("buffer 4294967296"),
        format!("line 1: `4294967296` {no_number}")
    );
    assert_eq!(problem("slots none"), format!("line 1: `none` {no_number}"));
    assert_eq!(
        problem("slots 4\n\nslots 4"),
        "line 3: `slots` stands here a second time"
    );
    assert_eq!(problem("delay 1 2"), "line 1: `delay` takes one number");
    assert_eq!(problem("1 2 3"), "line 1: `1` starts no line of this form");
    assert_eq!(problem("1 x"), format!("line 1: `x` {no_number}"));
    assert_eq!(
        problem("table 0 1\nslots 4\n"),
        "line 3: the text ends without a `delay` line"
    );
    assert_eq!(problem(""), "line 1: the text ends without a `table` line");
}
