//! What every command says of itself, and that its example is what it prints.

use std::fs;

use crate::stage::{Ended, Stage};

/// The parts of a command's help, in their order.
const PARTS: [&str; 4] = [
    "\n  --help      print this\n",
    "\n  --version   print the kit and the commit\n",
    "\n\nExample:\n  $ bin/",
    "\n\nExit status: 0 ",
];
/// No line of it is longer.
const COLUMNS: usize = 96;

/// The help of a command with this usage; its version, and that it knows no other option.
pub fn check(stage: &Stage, usage: &str) -> String {
    let help = stage.run(&["--help"]);
    help.check_printed(&help.out);
    stage.run(&["-h"]).check_printed(&help.out);
    let begin = format!("usage: {} {usage}\n\n", stage.tested());
    assert!(help.out.starts_with(&begin), "{help:?}");
    let mut rest = &help.out[..];
    for part in PARTS {
        let found = rest
            .find(part)
            .unwrap_or_else(|| panic!("{part:?} in {help:?}"));
        rest = &rest[found + 1..];
    }
    assert!(
        help.out.lines().all(|line| line.chars().count() <= COLUMNS),
        "{help:?}"
    );
    stage.run(&["-x"]).check_problem(2, "no option '-x'");
    check_version(stage);
    help.out
}

/// The kit is that of the last proof. The commit is that of the folder itself, and said to be changed
/// if it is.
fn check_version(stage: &Stage) {
    let version = |commit: &str| {
        let wanted = format!("{}: kit 1, commit {commit}\n", stage.tested());
        stage.run(&["--version"]).check_printed(&wanted);
    };
    version("unknown");
    let git = |words: &str| {
        ran(
            stage,
            &format!("git -c user.name=a -c user.email=a@b {words}"),
        )
    };
    git("init -q");
    git("add kit.txt");
    git("commit -q -m first");
    let commit = git("rev-parse --short=12 HEAD").out;
    version(commit.trim_end());
    stage.write("kit.txt", "kit 1");
    version(&format!("{}-dirty", commit.trim_end()));
    fs::remove_dir_all(stage.path(".git")).expect("the folder of git");
}

/// The examples of a text are what their commands print: an indented line with a dollar sign, then
/// the lines printed, as far indented.
pub fn check_example(stage: &Stage, text: &str) {
    let examples = examples(text);
    assert!(!examples.is_empty(), "no example in {text}");
    for (command, printed) in examples {
        let ended = ran(stage, &command);
        assert_eq!(ended.out, printed, "{command}");
    }
}

/// Each command of a text that follows a dollar sign, and what the text says that it prints.
fn examples(text: &str) -> Vec<(String, String)> {
    let mut found: Vec<(String, String)> = Vec::new();
    let mut indent = None;
    for line in text.lines() {
        let words = line.trim_start();
        let spaces = &line[..line.len() - words.len()];
        if let Some(command) = words.strip_prefix("$ ").filter(|_| !spaces.is_empty()) {
            found.push((command.to_owned(), String::new()));
            indent = Some(spaces);
        } else if let Some((inner, (_, printed))) = indent
            .and_then(|spaces| line.strip_prefix(spaces))
            .zip(found.last_mut())
        {
            printed.push_str(inner);
            printed.push('\n');
        } else {
            indent = None;
        }
    }
    found
}

/// A line of a shell on the stage that ends well and complains of nothing.
fn ran(stage: &Stage, line: &str) -> Ended {
    let ended = stage.ended(stage.system("bash").args(["-c", line]));
    assert_eq!(
        (ended.status, &*ended.err),
        (Some(0), ""),
        "{line}: {ended:?}"
    );
    ended
}
