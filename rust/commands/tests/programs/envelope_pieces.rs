//! `bin/envelope-pieces`: the pieces of a window beside the reference, whose first pieces in turn they
//! are, and their sums; and the script: one line, or one that says why there is none.

use commands::pieces::Pieces;
use reference::{closure, piece};
use tests_program::cases::{for_each_drawn, said, wide};
use tests_program::draw;
use tests_program::over_library::Script;
use tests_program::stage::PROVED;

const TABLES: usize = 2_000;
const ASKED: [&str; 2] = ["0 2 3", "4"];
const PRINTED: &str = "f(4) = 6 = table(2) + table(2)\n";

fn check(table: &[u32], window: u32) -> Result<(), String> {
    let found = said(Pieces::of(table, window))?;
    let wide = wide(table);
    let f = closure::by_recursion(&wide, window as usize)[window as usize];
    let pieces: Vec<usize> = found.pieces.iter().map(|&k| k as usize).collect();
    let sum: u64 = pieces.iter().map(|&k| wide[k]).sum();
    let wanted = said(piece::in_turn(&wide, window.into()))?;
    let rules = [
        (found.window == window, "window"),
        (found.packets == f, "f"),
        (
            pieces.iter().sum::<usize>() == window as usize,
            "windows' sum",
        ),
        (sum == f, "entries' sum"),
        (pieces == wanted, "pieces"),
    ];
    let broken = rules.iter().find(|(kept, _)| !kept);
    broken.map_or(Ok(()), |(_, rule)| {
        Err(format!("{table:?} at {window}: the {rule} of {found:?}"))
    })
}

#[test]
fn drawn_tables() {
    for_each_drawn(TABLES, |dice| {
        let table = draw::stream(dice, 1, 64, 0, 0).table;
        let some = [0; 3].map(|_| dice.below(300));
        let edges = [0, 1, table.len() as u32 - 1, table.len() as u32, 130];
        edges
            .into_iter()
            .chain(some)
            .try_for_each(|window| check(&table, window))
    });
}

#[test]
fn the_last_window() {
    let mut late = vec![0; 65];
    late[64] = 1_000_000;
    let mut flat = vec![1_000_000; 65];
    flat[0] = 0;
    for table in [&[0, 2, 3][..], &[0, 7, 7, 7], &[0, 1_000_000], &late, &flat] {
        check(table, 4_160).unwrap_or_else(|problem| panic!("{problem}"));
    }
}

#[test]
fn printed() {
    let text = |table: &[u32], window| Pieces::of(table, window).map(|pieces| pieces.to_string());
    for (table, window, wanted) in [
        (&[0, 2, 3][..], 4, "f(4) = 6 = table(2) + table(2)"),
        (&[0, 2, 3], 5, "f(5) = 8 = table(1) + table(2) + table(2)"),
        (&[0, 2, 5], 2, "f(2) = 4 = table(1) + table(1)"),
        (&[0, 2, 3], 2, "f(2) = 3 = table(2)"),
        (&[0, 2, 3], 0, "f(0) = 0"),
        (&[0, 0], 3, "f(3) = 0 = table(1) + table(1) + table(1)"),
    ] {
        assert_eq!(text(table, window), Ok(String::from(wanted)));
    }
}

#[test]
fn refusals() {
    for (table, window, number) in [
        (&[][..], 9_999, 1),
        (&[0], 0, 1),
        (&[1, 2], 9_999, 2),
        (&[0, 1_000_001, 0], 9_999, 3),
        (&[0, 3, 2], 9_999, 4),
        (&[0, 2, 3], 4_161, 5),
        (&[0, 2, 3], u32::MAX, 5),
    ] {
        let found = Pieces::of(table, window).map_err(|refusal| refusal.number());
        assert_eq!(found, Err(number), "{table:?} at {window}");
    }
}

pub fn script() -> Script {
    let program = env!("CARGO_BIN_EXE_envelope-pieces");
    Script::new("bin/envelope-pieces", program, &ASKED, PRINTED)
}

#[test]
fn pieces_are_printed() {
    let stage = script().stage;
    stage.run(&ASKED).check_printed(PRINTED);
    stage.run(&["0 2 3", "0"]).check_printed("f(0) = 0\n");
    let two = stage.run(&["  0\n2 5 ", "2"]);
    two.check_printed("f(2) = 4 = table(1) + table(1)\n");
    let long = stage.run(&["0 1", "4160"]);
    assert_eq!(long.out.matches("table(1)").count(), 4_160);
    assert_eq!(stage.calls(PROVED), 0);
}

#[test]
fn help_and_wrong_usage() {
    let words = [&[][..], &["0 2 3"], &["0", "2", "3"]];
    let wrong = words.map(|words| (words, "a table and a window"));
    script().check_usage("TABLE WINDOW", &wrong);
}

#[test]
fn what_is_no_number_is_said() {
    let stage = script().stage;
    for (table, window, words) in [
        ("0 two", "4", "the table's entry \"two\" is no number"),
        (
            "0,2,3",
            "4",
            "entry \"0,2,3\" is no number; entries have spaces",
        ),
        ("-1 2 3", "4", "the table's entry \"-1\" is no number"),
        ("0 2 3", "-4", "the window \"-4\" is no number"),
        ("0 2 3", "", "the window \"\" is no number"),
        ("0 2 3", "4\n5", "the window \"4\\n5\" is no number"),
        ("0 2 3", "4.0", "the window \"4.0\" is no number"),
    ] {
        stage.run(&[table, window]).check_problem(2, words);
    }
}

#[test]
fn refused_tables_and_windows_say_their_number() {
    let stage = script().stage;
    let far = "99999999999999999999";
    for (table, window, words) in [
        ("", "4", "refused 1: L is not 1 to 64"),
        ("0", far, "refused 1: "),
        ("7 2", far, "refused 2: "),
        ("99999999999999999999 2", "4", "refused 2: "),
        ("0 1000001", far, "refused 3: "),
        ("0 99999999999999999999 2", "4", "refused 3: "),
        ("0 3 2", far, "refused 4: "),
        ("0 2 3", "4161", "refused 5: window above 4,160"),
        ("0 2 3", far, "refused 5: "),
    ] {
        stage.run(&[table, window]).check_problem(1, words);
    }
}
