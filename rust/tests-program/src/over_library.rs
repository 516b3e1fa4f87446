//! What every script over the library does, whatever it prints: it says how it is used, builds what is
//! missing, and says what could not be built or written.

use std::fs;

use crate::help;
use crate::stage::{COMPILED, LIBRARY, PROGRAM, PROVED, Stage, pass_time};

/// A script on its stage, and how it is asked for something that it prints.
pub struct Script {
    pub stage: Stage,
    pub arguments: &'static [&'static str],
    pub printed: &'static str,
}

/// Words that are wrong usage, and what is said of them.
pub type WrongUsage<'a> = (&'a [&'a str], &'a str);

impl Script {
    pub fn new(
        script: &'static str,
        program: &str,
        arguments: &'static [&'static str],
        printed: &'static str,
    ) -> Script {
        Script {
            stage: Stage::over_library(script, program),
            arguments,
            printed,
        }
    }

    /// It prints this usage, says its version, knows no other option, and compiles nothing for it or for
    /// wrong usage; the example in its help is what it prints.
    pub fn check_usage(&self, usage: &str, wrong: &[WrongUsage]) {
        let help = help::check(&self.stage, usage);
        for (words, said) in wrong {
            self.stage.run(words).check_problem(2, said);
        }
        assert_eq!(self.stage.calls(COMPILED), 0);
        help::check_example(&self.stage, &help);
    }

    /// It takes a stream file before these words, and says of one that is refused or cannot be read
    /// which it is and why.
    pub fn check_stream_files(&self, after: &[&str]) {
        let stage = &self.stage;
        for (file, said) in [
            (
                "streams/refused.stream",
                "'streams/refused.stream': refused 6: delay is neither 0 to 64 nor 255\n",
            ),
            (
                "streams/no-limits.stream",
                "'streams/no-limits.stream': refused 23: both limits none; its table can still be printed by bin/loss-table\n",
            ),
            ("-", "standard input: refused 12"),
            ("/dev/zero", "refused 1:"),
            ("streams", "'streams' is a directory"),
            ("no such", "no file 'no such'"),
            ("", "no file ''"),
        ] {
            let words = [&[file], after].concat();
            stage.run(&words).check_problem(1, said);
        }
        let words = [&["-"], after].concat();
        let folder = stage.feed_folder(&words, "streams");
        folder.check_problem(1, "standard input could not be read: Is a directory");
    }

    pub fn check_unwritten(&self) {
        let full = self.stage.run_full(self.arguments);
        full.check_problem(1, "could not be written: No space left on device");
        let early = self.stage.run_unread(self.arguments);
        assert_eq!((early.status, &*early.err), (Some(141), ""));
    }

    /// A missing library and program are built, once, and the progress is shown.
    pub fn check_built(&self) {
        fs::remove_file(self.stage.path(LIBRARY)).expect("the library");
        fs::remove_dir_all(self.stage.path("rust")).expect("the program");
        let ended = self.stage.run(self.arguments);
        assert_eq!((ended.status, &*ended.out), (Some(0), self.printed));
        let name = self.stage.tested();
        let progress = [
            format!(
                "{name}: first the library is proved and built: 2 crates, some 3 min if none of them was proved before"
            ),
            format!("{name}: 2 of 2 crates proved (exports_c, 1 s)"),
            format!("{name}: compiling commands"),
        ];
        let said = ended.untimed();
        assert_eq!(said.lines().collect::<Vec<_>>(), progress);
        self.stage.run(self.arguments).check_printed(self.printed);
        let calls = (self.stage.calls(PROVED), self.stage.calls(COMPILED));
        assert_eq!(calls, (1, 2));
    }

    /// What could not be built is not run, and the missing command or its complaint is shown.
    pub fn check_unbuilt(&self) {
        let run = || self.stage.run(self.arguments);
        let no_crate = "echo 'error: no such crate' >&2; exit 101";
        self.stage.script("tools/cargo", no_crate);
        run().check_problem(1, "the program was not compiled");
        fs::remove_file(self.stage.path("tools/cargo")).expect("the command");
        run().check_problem(1, "'cargo', which is not on PATH");
        pass_time();
        self.stage
            .write("crates/exports_c/src/lib.rt", "// changed");
        let not_proved = "echo 'fn slot: no proof'; exit 1";
        self.stage.script("tools/rt", not_proved);
        let ended = run();
        ended.check_last_problem(1, " was not built; ");
        // Of a program and a library the program is made first.
        let both = self.stage.path(PROGRAM).exists();
        let first = if both { "loss_table" } else { "exports_c" };
        let complaint = format!("\n{}: {first} not proved (1 s)\n", self.stage.tested());
        assert!(ended.untimed().contains(&complaint), "{ended:?}");
        fs::remove_file(self.stage.path("tools/rt")).expect("the command");
        run().check_problem(1, "'rt' is not on PATH");
    }
}
