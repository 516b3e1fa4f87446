//! The script `loss-table`: whatever it is given, a table, a refusal, or one line that says why there
//! is neither.

use std::fs;

use tests_program::help;
use tests_program::program::Program;
use tests_program::stage::{CALLED, Ended, PROGRAM, Stage, pass_time, repository};

/// The script with the program built from sources that have not changed since, and an `rt` that
/// notes each call for the program and builds it again.
fn stage() -> Stage {
    let stage = Stage::of_command("bin/loss-table");
    stage.write("crates/loss_table/src/main.rt", "");
    stage.write("crates/text/src/lib.rt", "");
    stage.write("crates.txt", "text:\nloss_table: text\n");
    let program = Program::find().expect("the program");
    stage.copy_from(program.path(), "kept/loss_table");
    stage.script(
        "tools/rt",
        &format!(
            "{CALLED}\n\
             [ $crate = loss_table ] || exit 0\n\
             echo $1 $crate >>calls\n\
             echo 'fn main: proved' >&2\n\
             echo refused 12\n\
             mkdir -p $out && cp kept/loss_table $out/"
        ),
    );
    stage.proved("text");
    pass_time();
    stage.copy_from(program.path(), PROGRAM);
    stage
}

fn table(sample: &str) -> String {
    fs::read_to_string(repository(&format!("streams/{sample}.table"))).expect("a sample's table")
}

fn check_printed(ended: &Ended, sample: &str) {
    assert_eq!((ended.status, &*ended.err), (Some(0), ""));
    assert_eq!(ended.out, table(sample));
}

#[test]
fn a_file_standard_input_or_the_sample() {
    let stage = stage();
    check_printed(&stage.run(&[]), "bella");
    check_printed(&stage.run(&["streams/long.stream"]), "long");
    check_printed(&stage.run(&["streams/refused.stream"]), "refused");
    check_printed(&stage.run(&["streams/no-limits.stream"]), "no-limits");
    let long = fs::read(stage.path("streams/long.stream")).expect("a sample");
    check_printed(&stage.feed(&["-"], &long), "long");
    check_printed(&stage.feed(&["/dev/stdin"], &long), "long");
    assert_eq!(stage.run(&["-"]).out, "refused 12\n");
    assert_eq!(stage.run(&["/dev/zero"]).out, "refused 1\n");
    assert_eq!(stage.calls("calls"), 0);
}

#[test]
fn help_and_wrong_usage() {
    let stage = stage();
    let help = help::check(&stage, "[FILE]");
    help::check_example(&stage, &help);
    stage
        .run(&["a", "b"])
        .check_problem(2, "one stream file at most");
}

#[test]
fn what_cannot_be_read_is_no_refusal() {
    let stage = stage();
    stage.run(&["streams"]).check_problem(1, "is a directory");
    stage
        .run(&["no such"])
        .check_problem(1, "no file 'no such'");
    stage.run(&[""]).check_problem(1, "no file ''");
    stage
        .feed_folder(&["-"], "streams")
        .check_problem(1, "standard input could not be read: Is a directory");
}

#[test]
fn what_cannot_be_written_is_said() {
    let stage = stage();
    for arguments in [&[][..], &["streams/refused.stream"]] {
        let ended = stage.run_full(arguments);
        ended.check_problem(1, "could not be written: No space left on device");
    }
}

#[test]
fn a_reader_may_stop_early() {
    let stage = stage();
    let ended = stage.run_unread(&["streams/long.stream"]);
    assert_eq!((ended.status, &*ended.err), (Some(141), ""));
}

#[test]
fn a_program_that_breaks_off_is_no_table() {
    let stage = stage();
    for (lines, words) in [
        (
            "echo slot arrived admitted dropped departed held; echo 1 6 6 0 4 2",
            "last line",
        ),
        ("true", "last line"),
        ("printf refused", "last line"),
        ("echo refused 6; exit 3", "status 3"),
        ("kill -SEGV $$", "status 139"),
    ] {
        stage.script(PROGRAM, lines);
        stage.run(&[]).check_problem(1, words);
    }
}

#[test]
fn a_missing_program_is_built_and_its_progress_shown() {
    let stage = stage();
    fs::remove_file(stage.path(PROGRAM)).expect("the program");
    let ended = stage.run(&[]);
    assert_eq!((ended.status, &*ended.out), (Some(0), &*table("bella")));
    assert!(
        ended
            .untimed()
            .ends_with("loss-table: 2 of 2 crates proved (loss_table, 1 s)\n"),
        "{ended:?}"
    );
    assert!(!ended.err.contains("unchanged"), "{ended:?}");
    check_printed(&stage.run(&[]), "bella");
    assert_eq!(stage.calls("calls"), 1);
}

#[test]
fn sources_that_changed_are_noticed() {
    let stage = stage();
    let changes: [fn(&Stage); 4] = [
        |stage| stage.write("crates/loss_table/src/main.rt", "// changed"),
        |stage| stage.write("crates.txt", "text:\nloss_table: text csv\n"),
        |stage| stage.write("crates/text/src/lib.rt", "// changed"),
        |stage| fs::remove_file(stage.path("crates/text/src/lib.rt")).expect("a file"),
    ];
    for (before, change) in changes.into_iter().enumerate() {
        pass_time();
        change(&stage);
        let ended = stage.run(&[]);
        assert_eq!((ended.status, &*ended.out), (Some(0), &*table("bella")));
        check_printed(&stage.run(&[]), "bella");
        assert_eq!(stage.calls("calls"), before + 1);
    }
}

#[test]
fn an_old_program_is_not_run() {
    let stage = stage();
    pass_time();
    stage.write("crates/loss_table/src/main.rt", "// changed");
    stage.script("tools/rt", "echo 'fn main: no proof'; exit 1");
    let ended = stage.run(&[]);
    ended.check_last_problem(1, "the program was not built");
    let said = "\nloss-table: loss_table not proved (1 s)\n";
    assert!(ended.untimed().contains(said), "{ended:?}");
    fs::remove_file(stage.path("tools/rt")).expect("the command");
    stage.run(&[]).check_problem(1, "'rt' is not on PATH");
}
