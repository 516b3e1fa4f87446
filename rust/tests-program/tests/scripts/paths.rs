//! Files and folders that pages name are there.

use std::fs;
use std::path::PathBuf;

use tests_program::stage::repository;

/// They name paths below the repository's folder or below `crates`. Within a line a path may go on from
/// the crate that stood before it.
const PAGES: [&str; 5] = [
    "README.md",
    "docs/CLAIMS.md",
    "docs/COMMANDS.md",
    "docs/DECISIONS.md",
    "docs/FORMAT.md",
];

/// What stands in backticks and reads as a path of two names or more, other than commands, what is built
/// and what stands for a name, as in `DIR/NAME.stream`.
fn paths(line: &str) -> impl Iterator<Item = &str> {
    let spans = line.split('`').skip(1).step_by(2);
    let sign = |sign: char| sign.is_alphanumeric() || "_-./".contains(sign);
    spans
        .filter(move |span| span.trim_end_matches('/').contains('/') && span.chars().all(sign))
        .filter(|span| !span.starts_with("./") && !span.starts_with("target/"))
        .filter(|span| !span.starts_with(char::is_uppercase))
}

/// A must-fail edit is named without its ending.
fn is_there(path: &str) -> bool {
    let [below, edit] = [path.to_owned(), format!("{path}.edit")].map(|path| repository(&path));
    below.exists() || edit.exists()
}

/// The paths of a line that lead nowhere.
fn lost(line: &str) -> Vec<String> {
    let mut last = PathBuf::new();
    let mut lost = Vec::new();
    for path in paths(line) {
        let below = format!("crates/{path}");
        if is_there(path) {
            continue;
        } else if is_there(&below) {
            last = below.split('/').take(2).collect();
        } else if !is_there(&format!("{}/{path}", last.display())) {
            lost.push(path.to_owned());
        }
    }
    lost
}

#[test]
fn what_pages_name_is_there() {
    let mut named = 0;
    for page in PAGES {
        let text = fs::read_to_string(repository(page)).expect("a page");
        for line in text.lines() {
            named += paths(line).count();
            assert_eq!(lost(line), Vec::<String>::new(), "{page}: {line}");
        }
    }
    assert!(named > 500, "{named}");
}

#[test]
fn what_is_not_there_is_found() {
    let line = "`calculus/specs`, `proofs/Losses`, `calculus/specs/Nothing.antt`, `proofs/Nothing.antt`, `rust`, `./no/such`";
    let wanted = ["calculus/specs/Nothing.antt", "proofs/Nothing.antt"];
    assert_eq!(lost(line), wanted);
    assert_eq!(lost("`proofs/Losses`"), ["proofs/Losses"]);
    let edits = "`calculus/must-fail/nobody_bent_this`, `calculus/must-fail/permitted_full_buffer`";
    assert_eq!(lost(edits), ["calculus/must-fail/nobody_bent_this"]);
}
