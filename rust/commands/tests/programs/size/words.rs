//! Every line that there can be: a limit that is found, 0, or none; the other limit a number or none; and
//! a stream that ends in as many slots without arrivals as is asked for, or not, where ours loses as many
//! with no delay limit, or not.

use bezhantiru::{NO_BUFFER, NO_DELAY};
use reference::layout::StreamFile;
use tests_program::samples::bytes;

use super::program::Sizes;

fn text(table: &[u32], limits: (u32, u32), arrivals: &[u32], most_lost: u32) -> String {
    let file = StreamFile::of_arrivals(table, limits, arrivals).to_bytes();
    let sizes = Sizes::of_file(&file, most_lost);
    sizes.expect("an accepted stream").to_string()
}

/// The arrivals, then so many slots without any.
fn then_empty(arrivals: &[u32], slots: usize) -> Vec<u32> {
    [arrivals, &vec![0; slots]].concat()
}

fn check(printed: &str, lines: &[&str]) {
    assert_eq!(printed.lines().collect::<Vec<_>>(), lines);
}

#[test]
fn samples() {
    let of = |name, most_lost| {
        let sizes = Sizes::of_file(&bytes(name, "stream"), most_lost);
        sizes.expect("an accepted sample").to_string()
    };
    let every_slot = "smallest buffer 38 with delay limit 7 to lose no more by any slot than with no limit: 12 lost; with 37 no regulator loses fewer than 1 by slot 1, where no limit loses 0";
    check(
        &of("bella", 12),
        &[
            "smallest buffer 34 with delay limit 7: 12 lost; with 33 no regulator loses fewer than 13",
            "smallest delay limit 7 with buffer 36: 12 lost; with 6 no regulator loses fewer than 18",
            every_slot,
        ],
    );
    // Her stream ends in 8 slots without arrivals, which is enough for her delay limit, not for 64; but
    // with no delay limit ours loses 10 too.
    check(
        &of("bella", 9),
        &[
            "no buffer up to 1,000,000 does with delay limit 7: with 1,000,000 no regulator loses fewer than 12",
            "no delay limit up to 64 does with buffer 36: with 64 no regulator loses fewer than 10",
            every_slot,
        ],
    );
    check(
        &of("bella", 178),
        &[
            "buffer 0 does already with delay limit 7: 178 lost",
            "delay limit 0 does already with buffer 36: 90 lost",
            every_slot,
        ],
    );
    check(
        &of("delay-only", 12),
        &[
            "smallest buffer 6 with delay limit 2: 12 lost; with 5 no regulator loses fewer than 16",
            "smallest delay limit 2 with no limit on the buffer: 12 lost; with 1 no regulator loses fewer than 17",
            "smallest buffer 6 with delay limit 2 to lose no more by any slot than with no limit: 12 lost; with 5 no regulator loses fewer than 2 by slot 1, where no limit loses 1",
        ],
    );
    check(
        &of("six-packet-burst", 8),
        &[
            "smallest buffer 4 with no limit on the delay: 8 lost; with 3 no regulator loses fewer than 12",
            "delay limit 0 does already with buffer 4: 8 lost",
        ],
    );
    check(
        &of("six-packet-burst", 0),
        &[
            "smallest buffer 12 with no limit on the delay: 0 lost; with 11 no regulator loses fewer than 1",
            "no delay limit up to 64 does with buffer 4: with 64 no regulator loses fewer than 8",
        ],
    );
}

/// Table 0,0: nothing departs, so that each packet keeps its place, and a delay limit admits none.
#[test]
fn no_limit_on_the_delay() {
    let none = |most_lost, empty| {
        let arrivals = then_empty(&[1_000_000, 1], empty);
        text(&[0, 0], (NO_DELAY, 5), &arrivals, most_lost)
    };
    let no_delay =
        "no delay limit up to 64 does with buffer 5: with 64 no regulator loses fewer than 1000001";
    let unseen = "no delay limit up to 64 does with buffer 5: with 64 our regulator loses 1000001; that no other loses fewer is not shown, since the stream does not end in 64 slots without arrivals";
    let no_buffer = "no buffer up to 1,000,000 does with no limit on the delay: with 1,000,000 no regulator loses fewer than 1";
    check(&none(0, 64), &[no_buffer, no_delay]);
    check(&none(0, 63), &[no_buffer, unseen]);
    check(
        &none(1, 64),
        &[
            "smallest buffer 1000000 with no limit on the delay: 1 lost; with 999999 no regulator loses fewer than 2",
            no_delay,
        ],
    );
    check(
        &none(1_000_001, 0),
        &[
            "buffer 0 does already with no limit on the delay: 1000001 lost",
            "delay limit 0 does already with buffer 5: 1000001 lost",
        ],
    );
}

/// Table 0,1 and three packets: f(2) is 2 and f(3) is 3. With d 1 ours loses one, and somebody who knows
/// that the stream ends at once loses none. What a buffer alone would drop too nobody saves.
#[test]
fn streams_that_end_too_early() {
    let of = |delay, buffer, empty, most_lost| {
        text(
            &[0, 1],
            (delay, buffer),
            &then_empty(&[3], empty),
            most_lost,
        )
    };
    check(
        &of(1, 9, 0, 0),
        &[
            "no buffer up to 1,000,000 does with delay limit 1: with 1,000,000 our regulator loses 1; that no other loses fewer is not shown, since the stream does not end in a slot without arrivals",
            "smallest delay limit 2 with buffer 9: 0 lost; with 1 our regulator loses 1; that no other loses fewer is not shown, since the stream does not end in a slot without arrivals",
            "smallest buffer 2 with delay limit 1 to lose no more by any slot than with no limit: 1 lost; with 1 no regulator loses fewer than 2 by slot 1, where no limit loses 1",
        ],
    );
    check(
        &of(1, 9, 1, 0),
        &[
            "no buffer up to 1,000,000 does with delay limit 1: with 1,000,000 no regulator loses fewer than 1",
            "smallest delay limit 2 with buffer 9: 0 lost; with 1 no regulator loses fewer than 1",
            "smallest buffer 2 with delay limit 1 to lose no more by any slot than with no limit: 1 lost; with 1 no regulator loses fewer than 2 by slot 1, where no limit loses 1",
        ],
    );
    // One slot without arrivals is enough for a delay limit of 1, though not for the stream's own.
    check(
        &of(2, 9, 1, 0),
        &[
            "smallest buffer 3 with delay limit 2: 0 lost; with 2 no regulator loses fewer than 1",
            "smallest delay limit 2 with buffer 9: 0 lost; with 1 no regulator loses fewer than 1",
            "smallest buffer 3 with delay limit 2 to lose no more by any slot than with no limit: 0 lost; with 2 no regulator loses fewer than 1 by slot 1, where no limit loses 0",
        ],
    );
    // Nothing is said of smaller limits where 0 does.
    check(
        &of(2, NO_BUFFER, 0, 3),
        &[
            "buffer 0 does already with delay limit 2: 3 lost",
            "delay limit 0 does already with no limit on the buffer: 2 lost",
            "smallest buffer 3 with delay limit 2 to lose no more by any slot than with no limit: 0 lost; with 2 no regulator loses fewer than 1 by slot 1, where no limit loses 0",
        ],
    );
}

/// Table 0,2,2,2,2: with d 1 the delay limit drops the packet of slot 3, since f(4) is 2, and a buffer of 1
/// drops one of slot 9. With that buffer and no delay limit only the latter is lost.
#[test]
fn streams_that_end_too_early_for_both_limits() {
    let of = |most_lost| {
        let arrivals = [1, 1, 1, 0, 0, 0, 0, 0, 2];
        text(&[0, 2, 2, 2, 2], (1, 9), &arrivals, most_lost)
    };
    let because = "that no other loses fewer is not shown, since the stream does not end in a slot without arrivals";
    let every_slot = format!(
        "smallest buffer 2 with delay limit 1 to lose no more by any slot than with no limit: 1 lost; with 1 our regulator loses 2 by slot 9, where no limit loses 1; {because}"
    );
    check(
        &of(1),
        &[
            &format!(
                "smallest buffer 2 with delay limit 1: 1 lost; with 1 our regulator loses 2; {because}"
            ),
            "delay limit 0 does already with buffer 9: 1 lost",
            &every_slot,
        ],
    );
    check(
        &of(0),
        &[
            &format!(
                "no buffer up to 1,000,000 does with delay limit 1: with 1,000,000 our regulator loses 1; {because}"
            ),
            &format!(
                "smallest delay limit 2 with buffer 9: 0 lost; with 1 our regulator loses 1; {because}"
            ),
            &every_slot,
        ],
    );
}

/// A delay limit of 0 asks for no slot without arrivals.
#[test]
fn a_delay_limit_of_0() {
    check(
        &text(&[0, 2], (0, 9), &[5], 3),
        &[
            "smallest buffer 2 with delay limit 0: 3 lost; with 1 no regulator loses fewer than 4",
            "delay limit 0 does already with buffer 9: 3 lost",
            "smallest buffer 2 with delay limit 0 to lose no more by any slot than with no limit: 3 lost; with 1 no regulator loses fewer than 4 by slot 1, where no limit loses 3",
        ],
    );
    check(
        &text(&[0, 2], (0, 9), &[5], 2),
        &[
            "no buffer up to 1,000,000 does with delay limit 0: with 1,000,000 no regulator loses fewer than 3",
            "smallest delay limit 1 with buffer 9: 1 lost; with 0 no regulator loses fewer than 3",
            "smallest buffer 2 with delay limit 0 to lose no more by any slot than with no limit: 3 lost; with 1 no regulator loses fewer than 4 by slot 1, where no limit loses 3",
        ],
    );
}

#[test]
fn no_limit_on_the_buffer() {
    let of = |empty| text(&[0, 1], (9, NO_BUFFER), &then_empty(&[1_000], empty), 0);
    let buffer = "no buffer up to 1,000,000 does with delay limit 9: with 1,000,000 no regulator loses fewer than 990";
    let every_slot = "smallest buffer 10 with delay limit 9 to lose no more by any slot than with no limit: 990 lost; with 9 no regulator loses fewer than 991 by slot 1, where no limit loses 990";
    let no_delay = "no delay limit up to 64 does with no limit on the buffer: with 64 no regulator loses fewer than 935";
    let unseen = "no delay limit up to 64 does with no limit on the buffer: with 64 our regulator loses 935; that no other loses fewer is not shown, since the stream does not end in 64 slots without arrivals";
    check(&of(64), &[buffer, no_delay, every_slot]);
    check(&of(63), &[buffer, unseen, every_slot]);
}

/// 500,000 leave in a slot and the rest waits: a buffer of 1,000,000 is short in slot 2.
#[test]
fn no_buffer_is_large_enough_for_every_slot() {
    for empty in [3, 2] {
        let arrivals = then_empty(&[1_000_000, 1_000_000], empty);
        check(
            &text(&[0, 500_000], (3, 9), &arrivals, 1_999_999),
            &[
                "smallest buffer 1 with delay limit 3: 1999998 lost; with 0 no regulator loses fewer than 2000000",
                "delay limit 0 does already with buffer 9: 1999982 lost",
                "no buffer up to 1,000,000 does with delay limit 3 to lose no more by any slot than with no limit: with 1,000,000 no regulator loses fewer than 500000 by slot 2, where no limit loses 0",
            ],
        );
    }
}

#[test]
fn nothing_waits_or_nothing_arrives() {
    check(
        &text(&[0, 0], (3, 9), &[5], 5),
        &[
            "buffer 0 does already with delay limit 3: 5 lost",
            "delay limit 0 does already with buffer 9: 5 lost",
            "buffer 0 does already with delay limit 3 to lose no more by any slot than with no limit: 5 lost",
        ],
    );
    for arrivals in [&[][..], &[0, 0]] {
        check(
            &text(&[0, 2], (3, 9), arrivals, 0),
            &[
                "buffer 0 does already with delay limit 3: 0 lost",
                "delay limit 0 does already with buffer 9: 0 lost",
                "buffer 0 does already with delay limit 3 to lose no more by any slot than with no limit: 0 lost",
            ],
        );
    }
}
