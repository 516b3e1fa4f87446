//! The first run of a command: it says what is done and how long that takes, and a second command
//! waits for the first instead of building twice. The program only pretends to be the real one.

use std::collections::HashMap;
use std::fs;
use std::thread;
use std::time::{Duration, Instant};

use tests_program::stage::{CALLED, Stage, pass_time, repository};

const CALLS: &str = "calls";
const WAITS: &str = "loss-table: another command is proving and building; this one waits for it\n";
/// Long enough for a second command to start while the first is at work.
const WORK: &str = "sleep 1";
/// It makes the program.
const MAKES: &str = "mkdir -p $out\n\
                     printf '#!/bin/sh\\necho refused 6\\n' >$out/loss_table\n\
                     chmod +x $out/loss_table";

/// One for each crate that the program stands on, and one for the program.
const ALL_CALLS: usize = 3;
/// The calls for the crates below end here.
const PROGRAM_ALONE: &str = "[ $crate = loss_table ] || exit 0";

/// Nothing is built yet, of crates that stand on these; `rt` notes its call, its word and the crate it is
/// called in, and then does these lines.
fn stage_of(crates: &str, lines: &str) -> Stage {
    let stage = Stage::of_command("bin/loss-table");
    stage.write("crates.txt", crates);
    for line in crates.lines().filter(|line| !line.starts_with('#')) {
        let (name, _) = line.split_once([' ', ':']).expect("a crate");
        stage.write(&format!("crates/{name}/src/lib.rt"), "");
    }
    let notes = format!("{CALLED}\necho $1 $crate >>{CALLS}\n{lines}");
    stage.script("tools/rt", &notes);
    stage
}

/// The same of crates like ours.
fn stage(lines: &str) -> Stage {
    let crates = "# slowest first\n\
                  regulator:  # the slot: totals; rows; 100 s\n\
                  text: regulator  # lines; 30 s\n\
                  exports_c staticlib: text  # all; 21 s\n\
                  loss_table: text csv  # program: takes some s\n";
    stage_of(crates, lines)
}

fn called(stage: &Stage) -> String {
    fs::read_to_string(stage.path(CALLS)).expect("calls")
}

/// A second command, begun while the first one's `rt` is at work.
fn two_at_once(stage: &Stage) -> [(Option<i32>, String, String); 2] {
    let first = stage.start(&[]);
    let patience = Instant::now();
    while stage.calls(CALLS) == 0 {
        assert!(patience.elapsed() < Duration::from_secs(60), "no call");
        thread::sleep(Duration::from_millis(5));
    }
    let second = stage.run(&[]);
    let first = stage.waited(first);
    [first, second].map(|ended| (ended.status, ended.out, ended.err))
}

#[test]
fn progress_and_how_long_it_takes() {
    let stage = stage(&format!(
        "echo 'rt: chose --jobs 2'; echo \"fn $crate: proved\" >&2\n{PROGRAM_ALONE}\n{MAKES}"
    ));
    let ended = stage.run(&[]);
    assert_eq!((ended.status, &*ended.out), (Some(0), "refused 6\n"));
    // 100 s and 30 s wait for each other, and loss_table, which has no seconds there, counts as the
    // mean of 100, 30 and 21.
    let said = "\
loss-table: first the program is proved and built: 3 crates, some 4 min if none of them was proved before
loss-table: 1 of 3 crates proved (regulator, 1 s)
loss-table: 2 of 3 crates proved (text, 1 s)
loss-table: 3 of 3 crates proved (loss_table, 1 s)
";
    assert_eq!(ended.untimed(), said);
    assert_eq!(called(&stage), "lib regulator\nlib text\nrun loss_table\n");
    stage.run(&[]).check_printed("refused 6\n");
    assert_eq!(stage.calls(CALLS), ALL_CALLS);
}

/// What was proved before is left to the last call of `rt`, which looks at all.
#[test]
fn what_is_proved_is_not_proved_again() {
    let stage = stage(&format!("{PROGRAM_ALONE}\n{MAKES}"));
    stage.proved("regulator");
    assert_eq!(stage.run(&[]).out, "refused 6\n");
    assert_eq!(called(&stage), "lib text\nrun loss_table\n");
    // What it has changed since, or what rt kept of it is gone.
    for change in [
        |stage: &Stage| stage.write("crates/regulator/src/lib.rt", "// changed"),
        |stage: &Stage| {
            fs::remove_dir_all(stage.path("crates/regulator/out")).expect("what was kept")
        },
    ] {
        stage.proved("regulator");
        pass_time();
        change(&stage);
        for made in ["target/bin", CALLS] {
            let made = stage.path(made);
            let _ = fs::remove_dir_all(&made).or_else(|_| fs::remove_file(&made));
        }
        assert_eq!(stage.run(&[]).out, "refused 6\n");
        assert_eq!(called(&stage), "lib regulator\nlib text\nrun loss_table\n");
    }
}

/// Crates that stand on proved ones are proved at the same time.
#[test]
fn crates_are_proved_beside_each_other() {
    let crates = "numbers:\nleft: numbers\nright: numbers\nloss_table: left right\n";
    let beside = "[ $crate = loss_table ] || : >$crate.begun\n\
                  for try in $(seq 600); do\n\
                  [ $crate = left ] && [ ! -e right.begun ] || break\n\
                  sleep 0.1\n\
                  done\n\
                  [ $crate != left ] || [ -e right.begun ] || echo alone >>calls";
    let stage = stage_of(crates, &format!("{beside}\n{PROGRAM_ALONE}\n{MAKES}"));
    let ended = stage.ended(stage.command().env("RT_JOBS", "2"));
    assert_eq!((ended.status, &*ended.out), (Some(0), "refused 6\n"));
    let called = called(&stage);
    let calls: Vec<_> = called.lines().collect();
    assert_eq!((calls[0], calls[3]), ("lib numbers", "run loss_table"));
    assert!(
        calls.len() == 4 && calls.contains(&"lib left") && calls.contains(&"lib right"),
        "{calls:?}"
    );
}

/// With a number of jobs that is none, rt alone proves what is below.
#[test]
fn no_number_of_jobs_is_left_to_rt() {
    let stage = stage(&format!("{PROGRAM_ALONE}\n{MAKES}"));
    for jobs in ["some", "0"] {
        let ended = stage.ended(stage.command().env("RT_JOBS", jobs));
        assert_eq!(ended.out, "refused 6\n");
        assert_eq!(called(&stage), "run loss_table\n");
        fs::remove_dir_all(stage.path("target")).expect("what was built");
        fs::remove_file(stage.path(CALLS)).expect("calls");
    }
}

/// What stands on a crate that is not proved is not tried before the last call, which says why.
#[test]
fn a_crate_that_is_not_proved_is_named() {
    let stage = stage("echo 'fn regulator::slot: no proof'\nexit 1");
    let ended = stage.run(&[]);
    assert_eq!((ended.status, &*ended.out), (Some(1), ""));
    let said = "loss-table: regulator not proved (1 s)\n";
    assert!(ended.untimed().contains(said), "{ended:?}");
    assert_eq!(called(&stage), "lib regulator\nrun loss_table\n");
    // What rt said is kept.
    let kept = fs::read_to_string(stage.path("target/log/regulator"));
    assert_eq!(kept.expect("a log"), "fn regulator::slot: no proof\n");
}

#[test]
fn a_second_command_waits_and_builds_nothing() {
    let stage = stage(&format!("{PROGRAM_ALONE}\n{WORK}\n{MAKES}"));
    let [first, second] = two_at_once(&stage);
    assert_eq!((first.0, &*first.1), (Some(0), "refused 6\n"));
    let printed = (Some(0), String::from("refused 6\n"), String::from(WAITS));
    assert_eq!(second, printed);
    assert_eq!(stage.calls(CALLS), ALL_CALLS);
}

#[test]
fn a_second_command_builds_where_the_first_could_not() {
    let fails = format!(
        "{PROGRAM_ALONE}\n{WORK}\n[ $(wc -l <{CALLS}) -gt {ALL_CALLS} ] || exit 1\n{MAKES}"
    );
    let stage = stage(&fails);
    let [first, second] = two_at_once(&stage);
    assert_eq!((first.0, &*first.1), (Some(1), ""));
    assert!(first.2.contains("the program was not built"), "{first:?}");
    assert_eq!((second.0, &*second.1), (Some(0), "refused 6\n"));
    assert!(second.2.starts_with(WAITS), "{second:?}");
    assert_eq!(stage.calls(CALLS), 2 * ALL_CALLS);
}

/// Each line says what its crate is. A crate that was just cut or joined may have no seconds yet; most
/// have to have them, so that the minutes rest on what was measured.
#[test]
fn what_is_built_first_has_its_seconds() {
    let crates = fs::read_to_string(repository("crates.txt")).expect("a text");
    let (mut rests, mut measured) = (HashMap::new(), Vec::new());
    for line in crates.lines().filter(|line| !line.starts_with('#')) {
        let (listed, said) = line.split_once("  # ").expect(line);
        let (name, on) = listed.split_once(':').expect(line);
        let name = name.strip_suffix(" staticlib").unwrap_or(name);
        rests.insert(name, on);
        let last = said.rsplit_once("; ").map_or(said, |(_, last)| last);
        let seconds = last.strip_suffix(" s").map(str::parse::<u32>);
        if seconds.is_some_and(|seconds| seconds.is_ok()) {
            measured.push(name);
        }
    }
    let mut needed = vec!["exports_c", "loss_table"];
    let mut next = 0;
    while let Some(name) = needed.get(next) {
        let on = rests.get(name).map_or("", |on| on).split_whitespace();
        let new = on.filter(|name| rests.contains_key(name) && !needed.contains(name));
        let new: Vec<&str> = new.collect();
        needed.extend(new);
        next += 1;
    }
    assert!(needed.contains(&"calculus"));
    let missing: Vec<_> = needed
        .iter()
        .filter(|name| !measured.contains(name))
        .collect();
    assert!(
        missing.len() * 4 <= needed.len(),
        "no seconds of {missing:?}"
    );
}
