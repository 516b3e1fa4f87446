//! Small C programs that a test compiles with the header and runs. Without a compiler a test says
//! that it is skipped; the repository's `test` asks for one beforehand.

use std::env;
use std::io::{self, ErrorKind, Write};
use std::path::{Path, PathBuf};
use std::process::{Command, Output};

/// What a command printed, or none if there is no such command here.
pub fn printed(command: &mut Command) -> Option<String> {
    let output = match command.output() {
        Err(problem) if problem.kind() == ErrorKind::NotFound => return None,
        output => output.unwrap_or_else(|problem| panic!("{command:?}: {problem}")),
    };
    let Output {
        status,
        stdout,
        stderr,
    } = output;
    let said = String::from_utf8_lossy(&stderr);
    assert!(status.success(), "{command:?}: {status}\n{said}");
    Some(String::from_utf8_lossy(&stdout).into_owned())
}

/// A compiler that takes every warning for an error: the one in the variable, or the usual one.
pub fn compiler(variable: &str, usual: &str) -> Command {
    let mut compiler = Command::new(env::var_os(variable).unwrap_or_else(|| usual.into()));
    compiler
        .args(["-Wall", "-Wextra", "-Wpedantic", "-Werror", "-I"])
        .arg(here("../../include"));
    compiler
}

pub fn here(path: &str) -> PathBuf {
    Path::new(env!("CARGO_MANIFEST_DIR")).join(path)
}

/// The archive that this crate links.
pub fn archive() -> PathBuf {
    let folder = env::var_os("BEZHANTIRU_LIB_DIR");
    folder
        .map_or_else(|| here("../../target/staticlib"), PathBuf::from)
        .join("libexports.a")
}

/// What the program `tests/library/NAME.c` prints, linked with some archives; none where there is no
/// C compiler.
pub fn ran(name: &str, archives: &[PathBuf]) -> Option<String> {
    let program = Path::new(env!("CARGO_TARGET_TMPDIR")).join(name);
    let mut compiler = compiler("CC", "cc");
    compiler
        .args(["-std=c11", "-o"])
        .arg(&program)
        .arg(here(&format!("tests/library/{name}.c")))
        .args(archives);
    if printed(&mut compiler).is_none() {
        say_skipped(&format!("tests/library/{name}.c"), &compiler);
        return None;
    }
    Some(printed(&mut Command::new(program)).expect("the program just compiled"))
}

/// Past the test harness, which keeps to itself what a test that passes prints.
pub fn say_skipped(what: &str, compiler: &Command) {
    let compiler = compiler.get_program().display();
    writeln!(io::stderr(), "SKIPPED: {what}, there is no `{compiler}`").expect("standard error");
}
