//! `bin/appendix`: every short trace in order with its rows, as the reference's pencil works them out;
//! and the script: a line a trace, or one that says why there is none.

#[allow(dead_code, reason = "its main is for the program")]
#[path = "../../src/bin/appendix.rs"]
mod program;

use program::{Appendix, Trace};
use reference::{pencil, refusal, short_traces};
use tests_program::cases::{for_each_drawn, said, same, wide};
use tests_program::draw;
use tests_program::over_library::Script;
use tests_program::stage::PROVED;

const SET_UPS: usize = 300;
const ASKED: [&str; 4] = ["0 1", "1", "9", "1"];
const PRINTED: &str = "arrived 0, admitted 0, dropped 0, departed 0
arrived 1, admitted 1, dropped 0, departed 1
arrived 2, admitted 2, dropped 0, departed 1
arrived 3, admitted 2, dropped 1, departed 1
4 traces, 1 packet lost
";

/// What the reference lists, and works out of it by its pencil.
fn wanted(table: &[u32], (d, q): (u32, u32), slots: u32) -> Result<Appendix, refusal::Refusal> {
    let (width, traces) = (slots as usize, 4_usize.pow(slots));
    let counts = short_traces::list(slots.into(), width * traces)?;
    let narrow = |list: &[u64]| list.iter().map(|&count| count as u32).collect();
    let trace = |place: usize| {
        let arrived = &counts[place * width..][..width];
        let rows = pencil::run(&wide(table), d.into(), q.into(), arrived, [width; 3])?;
        Ok(Trace {
            arrived: narrow(arrived),
            admitted: narrow(&rows.admitted),
            dropped: narrow(&rows.dropped),
            departed: narrow(&rows.departed),
        })
    };
    let traces = (0..traces).map(trace).collect::<Result<_, _>>()?;
    Ok(Appendix { traces })
}

#[test]
fn drawn_set_ups() {
    for_each_drawn(SET_UPS, |dice| {
        let drawn = draw::stream(dice, 1, 8, 0, 0);
        let limits = (drawn.header.delay, drawn.header.buffer);
        for slots in 0..=4 {
            let found = said(Appendix::of(&drawn.table, limits, slots))?;
            let wanted = said(wanted(&drawn.table, limits, slots))?;
            same("appendix", &found, &wanted)
                .map_err(|problem| format!("{:?} {limits:?} {slots}: {problem}", drawn.table))?;
            let lost = wanted.traces.iter().flat_map(|trace| &trace.dropped);
            same("lost", found.lost(), lost.copied().map(u64::from).sum())?;
        }
        Ok(())
    });
}

#[test]
fn five_slots() {
    for (table, limits) in [(&[0, 2, 3][..], (1, 9)), (&[0, 1, 3], (255, 2))] {
        let found = Appendix::of(table, limits, 5);
        let found = found.expect("an accepted set-up");
        assert_eq!(Ok(&found), wanted(table, limits, 5).as_ref());
        assert_eq!(found.traces.len(), 1_024);
        let text = found.to_string();
        assert_eq!(text.lines().count(), 1_025);
        let last = format!("1024 traces, {} packets lost", found.lost());
        assert_eq!(text.lines().last(), Some(&*last));
    }
}

pub fn script() -> Script {
    let program = env!("CARGO_BIN_EXE_appendix");
    Script::new("bin/appendix", program, &ASKED, PRINTED)
}

/// Table 0,2,3 and d 1 without a buffer limit: X is 3, 5, 5, 8 and Y is 2, 3, 5, 6.
const BY_HAND: &str = "arrived 3 3 0 3, admitted 3 2 0 3, dropped 0 1 0 0, departed 2 1 2 1\n";

#[test]
fn traces_are_printed() {
    let stage = script().stage;
    stage.run(&ASKED).check_printed(PRINTED);
    let none = stage.run(&["0 2 3", "none", "0", "0"]);
    none.check_printed("arrived, admitted, dropped, departed\n1 trace, 0 packets lost\n");
    let of_four = stage.run(&["0 2 3", "1", "none", "4"]);
    assert!(of_four.out.contains(BY_HAND), "{}", of_four.out);
    assert_eq!(of_four.out.lines().count(), 257);
    let of_five = stage.run(&["0 0", "255", "0", "5"]);
    // Nothing is admitted, so that all of 0 to 3 packets in each of five slots is lost.
    assert!(of_five.out.ends_with("\n1024 traces, 7680 packets lost\n"));
    assert_eq!(stage.calls(PROVED), 0);
}

#[test]
fn help_and_wrong_usage() {
    let words = [&[][..], &ASKED[..3], &["0 1", "1", "9", "1", "1"]];
    let wrong = words.map(|words| (words, "a table, two limits and a number of slots"));
    script().check_usage("TABLE DELAY BUFFER SLOTS", &wrong);
}

#[test]
fn what_is_no_number_is_said() {
    let stage = script().stage;
    for (words_given, words) in [
        (
            ["0 two", "1", "9", "1"],
            "the table's entry \"two\" is no number",
        ),
        (
            ["0 1", "?", "9", "1"],
            "the delay limit \"?\" is no number, and not",
        ),
        (
            ["0 1", "1", "", "1"],
            "the buffer limit \"\" is no number, and not",
        ),
        (
            ["0 1", "1", "9", "none"],
            "the number of slots \"none\" is no number",
        ),
    ] {
        stage.run(&words_given).check_problem(2, words);
    }
}

#[test]
fn refused_arguments_say_their_number() {
    let stage = script().stage;
    let far = "99999999999999999999";
    for (words_given, words) in [
        (["0", "65", "1000001", "6"], "refused 1: "),
        (["1 1", "65", "1000001", "6"], "refused 2: "),
        (["0 1000001", "65", "1000001", "6"], "refused 3: "),
        (["0 3 2", "65", "1000001", "6"], "refused 4: "),
        (["0 1", "65", "1000001", "6"], "refused 6: "),
        (["0 1", "64", far, far], "refused 7: "),
        (["0 1", "none", "none", far], "refused 23: both limits none"),
        (["0 1", "64", "9", "6"], "refused 24: more than 5 slots"),
        (["0 1", "64", "9", far], "refused 24: "),
    ] {
        stage.run(&words_given).check_problem(1, words);
    }
}
