//! Examples of pages are what their commands print, and docs/COMMANDS.md has one of every command.

use std::fs;

use tests_program::help::check_example;
use tests_program::program::Program;
use tests_program::stage::{LIBRARY, PROGRAM, Stage, pass_time, repository};

/// The commands over the library, and their programs.
const PROGRAMS: [(&str, &str); 10] = [
    ("loss-curve", env!("CARGO_BIN_EXE_loss-curve")),
    ("peaks", env!("CARGO_BIN_EXE_peaks")),
    ("why", env!("CARGO_BIN_EXE_why")),
    ("envelope-pieces", env!("CARGO_BIN_EXE_envelope-pieces")),
    ("certificate", env!("CARGO_BIN_EXE_certificate")),
    ("size", env!("CARGO_BIN_EXE_size")),
    ("loss-tables", env!("CARGO_BIN_EXE_loss-tables")),
    ("beside", env!("CARGO_BIN_EXE_beside")),
    ("worst-trace", env!("CARGO_BIN_EXE_worst-trace")),
    ("appendix", env!("CARGO_BIN_EXE_appendix")),
];

/// The page of all commands.
const COMMANDS: &str = "docs/COMMANDS.md";
const PAGES: [&str; 5] = [
    "README.md",
    COMMANDS,
    "docs/PENCIL.md",
    "docs/SIZING.md",
    "referee/README.md",
];

fn page(name: &str) -> String {
    fs::read_to_string(repository(name)).expect("a page")
}

/// Everything is built already.
fn stage() -> Stage {
    let stage = Stage::of_command("bin/loss-table");
    stage.write("crates.txt", "exports_c staticlib:\n");
    stage.write("crates/exports_c/src/lib.rt", "");
    stage.script("tools/cargo", "true");
    for (name, program) in PROGRAMS {
        stage.copy(&format!("bin/{name}"));
        stage.copy_from(program.as_ref(), &format!("rust/target/release/{name}"));
    }
    pass_time();
    let program = Program::find().expect("the program");
    stage.copy_from(program.path(), PROGRAM);
    stage.write(LIBRARY, "");
    stage
}

#[test]
fn examples_are_what_commands_print() {
    let stage = stage();
    stage.lend_python();
    for file in ["streams/bella.table", "referee/referee.py"] {
        stage.copy(file);
    }
    for name in PAGES {
        check_example(&stage, &page(name));
    }
}

#[test]
fn every_command_is_listed_with_its_example() {
    let listed = page(COMMANDS);
    for entry in fs::read_dir(repository("bin")).expect("a folder") {
        let name = entry.expect("an entry").file_name();
        let name = name.into_string().expect("a name");
        assert!(listed.contains(&format!("\n`bin/{name} ")), "{name}");
        let shown = listed.contains(&format!("\n    $ bin/{name} "));
        assert!(shown, "no example of {name}");
    }
}
