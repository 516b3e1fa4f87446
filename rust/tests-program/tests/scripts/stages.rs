//! Where stages stand: not in the repository, all of which `rt` looks through for sources of crates that
//! are not listed.

use std::env;
use std::fs;
use std::io::{self, Write};
use std::path::{Path, PathBuf};

use tests_program::stage::{Stage, repository};

fn rt() -> Option<PathBuf> {
    let path = env::var_os("PATH")?;
    let mut found = env::split_paths(&path).map(|folder| folder.join("rt"));
    found.find(|rt| rt.is_file())
}

/// The sources below a folder that stand in no crate's own folders, seen from it. What rt makes of a crate
/// and git's own folder are not looked at, as rt does not.
fn lost(folder: &Path) -> Vec<PathBuf> {
    let (mut folders, mut found) = (vec![folder.to_owned()], Vec::new());
    while let Some(next) = folders.pop() {
        for entry in fs::read_dir(&next).expect("a folder") {
            let path = entry.expect("an entry").path();
            let seen = path.strip_prefix(folder).expect("a path below").to_owned();
            let names: Vec<_> = seen.iter().filter_map(|name| name.to_str()).collect();
            if path.is_dir() && !path.is_symlink() {
                if !matches!(names[..], [".git"] | ["crates", _, "out"]) {
                    folders.push(path);
                }
                continue;
            }
            let wanted = match path.extension().and_then(|ending| ending.to_str()) {
                Some("rt") => matches!(names[..], ["crates", _, "src", ..]),
                Some("antt") => matches!(names[..], ["crates", _, "specs" | "proofs", ..]),
                _ => true,
            };
            if !wanted {
                found.push(seen);
            }
        }
    }
    found
}

#[test]
fn no_stage_stands_in_the_repository() {
    let stage = Stage::of_command("bin/loss-table");
    stage.write("crates.txt", "text:\n");
    stage.write("crates/text/src/lib.rt", "");
    assert_eq!(lost(&repository("")), Vec::<PathBuf>::new());
    // One that stands in a repository, such as one in another stage, is found.
    let below = "rust/target/tmp/stage/crates/text/src/lib.rt";
    stage.write(below, "");
    assert_eq!(lost(&stage.path("")), [PathBuf::from(below)]);
}

#[test]
fn rt_refuses_a_stage_that_stands_in_a_repository() {
    let Some(rt) = rt() else {
        let skipped = "SKIPPED: tests/scripts/stages.rs, there is no `rt`";
        writeln!(io::stderr(), "{skipped}").expect("standard error");
        return;
    };
    let stage = Stage::of_command("bin/loss-table");
    stage.write("crates.txt", "text:\n");
    stage.write("crates/text/src/lib.rt", "");
    let below = "rust/target/tmp/stage/crates/text/src/lib.rt";
    stage.write(below, "");
    let rt = rt.to_str().expect("a path");
    let ended = stage.ended(stage.system(rt).args(["all", "check"]));
    assert_ne!(ended.status, Some(0), "{ended:?}");
    let said = format!("no check reads {}:", stage.path(below).display());
    assert!(
        format!("{}{}", ended.out, ended.err).contains(&said),
        "{ended:?}"
    );
}

#[test]
fn a_stage_is_removed_at_its_end() {
    let stage = Stage::of_command("bin/loss-table");
    let folder = stage.path("");
    assert!(folder.is_dir());
    drop(stage);
    assert!(!folder.exists());
}
