//! A small repository in a folder of its own, for a script of the repository and tools that only pretend
//! to be the real ones. What fails here ends the test.

use std::env;
use std::fs::{self, File};
use std::io::Write;
use std::os::unix::fs::PermissionsExt;
use std::path::{Path, PathBuf};
use std::process::{self, Child, Command, Stdio};
use std::sync::atomic::{AtomicUsize, Ordering};
use std::sync::{Mutex, MutexGuard, PoisonError};
use std::thread;
use std::time::Duration;

use crate::program::Program;
use crate::samples::SAMPLES;

/// Where the tools of a stage over the library note their calls, the library, and the program.
pub const PROVED: &str = "rt-calls";
pub const COMPILED: &str = "cargo-calls";
pub const LIBRARY: &str = "target/staticlib/libexports.a";
pub const PROGRAM: &str = "target/bin/loss_table";

/// An `rt` begins with this: the crate that it is called in, and where it puts what it makes, seen from
/// the stage's folder.
pub const CALLED: &str = "crate=${PWD##*/}; out=crates/$crate/out; cd ../..";

/// Held while a file is written and while a command starts. A command that starts in one test holds
/// open, for a moment, the files that another test is writing, and a script that is so held cannot be
/// run.
static ALONE: Mutex<()> = Mutex::new(());

/// How many stages this process has made.
static MADE: AtomicUsize = AtomicUsize::new(0);

/// Its folder is removed with it.
pub struct Stage {
    folder: PathBuf,
    script: &'static str,
}

/// How a stage's script ended, and what it said.
#[derive(Debug)]
pub struct Ended {
    script: &'static str,
    pub status: Option<i32>,
    pub out: String,
    pub err: String,
}

impl Ended {
    pub fn last_line(&self) -> &str {
        self.out.lines().last().unwrap_or_default()
    }

    /// What it said on standard error, with a second for every crate that was proved.
    pub fn untimed(&self) -> String {
        let line = |line: &str| match line.rsplit_once(" (") {
            Some((said, took)) if took.ends_with(" s)") => {
                let words = took
                    .rsplit_once(", ")
                    .map_or_else(String::new, |(name, _)| format!("{name}, "));
                format!("{said} ({words}1 s)\n")
            }
            _ => format!("{line}\n"),
        };
        self.err.lines().map(line).collect()
    }

    /// This on standard output, and nothing on standard error.
    pub fn check_printed(&self, wanted: &str) {
        assert_eq!((self.status, &*self.err), (Some(0), ""), "{self:?}");
        assert_eq!(self.out, wanted);
    }

    /// Nothing on standard output; on standard error one line of the script with these words.
    pub fn check_problem(&self, status: i32, words: &str) {
        assert_eq!(self.err.lines().count(), 1, "{self:?}");
        self.check_last_problem(status, words);
    }

    /// The same behind lines of progress.
    pub fn check_last_problem(&self, status: i32, words: &str) {
        assert_eq!((self.status, &*self.out), (Some(status), ""), "{self:?}");
        let last = self
            .err
            .split_inclusive('\n')
            .next_back()
            .unwrap_or_default();
        let begin = format!("{}: ", self.script);
        assert!(last.starts_with(&begin), "{self:?}");
        assert!(last.contains(words), "{words} in {self:?}");
    }
}

pub fn repository(path: &str) -> PathBuf {
    Path::new(env!("CARGO_MANIFEST_DIR"))
        .join("../..")
        .join(path)
}

impl Stage {
    /// The script that is tested, in a folder that has nothing else yet. It lies outside the repository,
    /// in which `rt` refuses the sources of crates that are not listed.
    pub fn new(script: &'static str) -> Stage {
        let number = MADE.fetch_add(1, Ordering::Relaxed);
        let name = format!("bezhantiru-tests-{}-{number}", process::id());
        let folder = env::temp_dir().join(name);
        // A process of the same number that was killed may have left one.
        let _ = fs::remove_dir_all(&folder);
        fs::create_dir(&folder).unwrap_or_else(|problem| panic!("{}: {problem}", folder.display()));
        let stage = Stage { folder, script };
        stage.copy(script);
        stage
    }

    /// A stage for a command's script, with the samples: what every command finds in the repository.
    pub fn of_command(script: &'static str) -> Stage {
        let stage = Stage::new(script);
        for file in ["scripts/command", "scripts/building"] {
            stage.copy(file);
        }
        stage.write("kit.txt", "kit 1\n");
        for sample in SAMPLES {
            stage.copy(&format!("streams/{sample}.stream"));
        }
        stage
    }

    /// A stage for the script of a Rust program over the library, which is given: a library made from
    /// sources that have not changed since, an `rt` that makes it again, and a `cargo` that hands out
    /// the program. Both note their calls, `rt` those for the library.
    pub fn over_library(script: &'static str, program: &str) -> Stage {
        let stage = Stage::of_command(script);
        for name in ["regulator", "loss_table", "exports_c"] {
            stage.write(&format!("crates/{name}/src/lib.rt"), "");
        }
        let crates = "regulator:  # the slot; 100 s\n\
                      text:\n\
                      loss_table:\n\
                      exports_c staticlib: regulator  # all; 21 s\n";
        stage.write("crates.txt", crates);
        stage.proved("regulator");
        stage.copy_from(program.as_ref(), "kept/program");
        stage.script(
            "tools/rt",
            &format!(
                "{CALLED}\n\
                 [ $crate = exports_c ] || exit 0\n\
                 echo $1 $crate >>{PROVED}\n\
                 echo 'fn slot: proved'\n\
                 mkdir -p $out && touch $out/libexports_c.a"
            ),
        );
        let to = format!("rust/target/release/{}", stage.tested());
        stage.script(
            "tools/cargo",
            &format!(
                "echo \"$*\" >>{COMPILED}\n\
                 if [ ! -e {to} ]; then\n\
                 echo '   Compiling commands v0.1.0 (/rust/commands)' >&2\n\
                 mkdir -p rust/target/release && cp kept/program {to}\n\
                 fi\n\
                 echo '    Finished `release` profile [optimized] target(s) in 0.01s' >&2"
            ),
        );
        stage.copy_from(program.as_ref(), &to);
        pass_time();
        stage.write(LIBRARY, "");
        stage
    }

    /// The same, and the proved program beside the library, as up to date as that.
    pub fn over_both(script: &'static str, program: &str) -> Stage {
        let stage = Stage::over_library(script, program);
        let prints = Program::find().unwrap_or_else(|problem| panic!("{problem}"));
        pass_time();
        stage.copy_from(prints.path(), PROGRAM);
        stage
    }

    /// A crate of the stage that a command has had proved, and that has not changed since.
    pub fn proved(&self, name: &str) {
        pass_time();
        self.write(&format!("crates/{name}/out/proved"), "");
        self.write(&format!("target/stamp/{name}"), "");
    }

    /// The script's name.
    pub fn tested(&self) -> &'static str {
        self.script.rsplit('/').next().unwrap_or_default()
    }

    pub fn path(&self, name: &str) -> PathBuf {
        self.folder.join(name)
    }

    pub fn write(&self, name: &str, text: &str) {
        let path = self.path(name);
        fs::create_dir_all(path.parent().expect("a folder")).expect("a folder");
        let _alone = alone();
        fs::write(path, text).expect("a file");
    }

    /// A copy of one of the repository's files.
    pub fn copy(&self, name: &str) {
        self.copy_from(&repository(name), name);
    }

    pub fn copy_from(&self, file: &Path, name: &str) {
        let path = self.path(name);
        fs::create_dir_all(path.parent().expect("a folder")).expect("a folder");
        let _alone = alone();
        fs::copy(file, path).unwrap_or_else(|problem| panic!("{}: {problem}", file.display()));
    }

    /// A script at the path; one of `tools` is found before the real command of its name.
    pub fn script(&self, name: &str, lines: &str) {
        self.write(name, &format!("#!/usr/bin/env bash\n{lines}\n"));
        let path = self.path(name);
        fs::set_permissions(path, fs::Permissions::from_mode(0o755)).expect("permissions");
    }

    /// A stage's `python3`: the one that is found here, wherever it stands.
    pub fn lend_python(&self) {
        let path = env::var("PATH").unwrap_or_default();
        let lines = format!("PATH='{path}' exec python3 \"$@\"");
        self.script("tools/python3", &lines);
    }

    /// How many lines a file has that the stage's tools note their calls in.
    pub fn calls(&self, name: &str) -> usize {
        fs::read_to_string(self.path(name)).map_or(0, |calls| calls.lines().count())
    }

    /// The script that is tested, to be run with the stage's tools and the system's.
    pub fn command(&self) -> Command {
        self.prepared(Command::new(self.path(self.script)))
    }

    /// A command of the system, to be run likewise.
    pub fn system(&self, name: &str) -> Command {
        self.prepared(Command::new(name))
    }

    fn prepared(&self, mut command: Command) -> Command {
        let tools = self.path("tools");
        command
            .env("PATH", format!("{}:/usr/bin:/bin", tools.display()))
            .env_remove("CC")
            .env_remove("CXX")
            .env_remove("BEZHANTIRU_LIB_DIR")
            .env("TMPDIR", &self.folder)
            .current_dir(&self.folder)
            .stdin(Stdio::null())
            .stdout(Stdio::piped())
            .stderr(Stdio::piped());
        command
    }

    pub fn run(&self, arguments: &[&str]) -> Ended {
        self.ended(self.command().args(arguments))
    }

    /// The script, which is not waited for.
    pub fn start(&self, arguments: &[&str]) -> Child {
        started(self.command().args(arguments))
    }

    /// The script, writing to a device that has no room left.
    pub fn run_full(&self, arguments: &[&str]) -> Ended {
        let full = File::options().write(true).open("/dev/full");
        let mut command = self.command();
        self.ended(command.args(arguments).stdout(full.expect("a full device")))
    }

    /// The script, whose reader stops before it has read anything, as `head -0` does.
    pub fn run_unread(&self, arguments: &[&str]) -> Ended {
        let mut child = self.start(arguments);
        drop(child.stdout.take());
        self.waited(child)
    }

    /// The script with the folder as its standard input.
    pub fn feed_folder(&self, arguments: &[&str], folder: &str) -> Ended {
        let folder = File::open(self.path(folder)).expect("a folder");
        self.ended(self.command().args(arguments).stdin(folder))
    }

    /// The script fed through a pipe.
    pub fn feed(&self, arguments: &[&str], input: &[u8]) -> Ended {
        let mut command = self.command();
        let mut child = started(command.args(arguments).stdin(Stdio::piped()));
        let mut pipe = child.stdin.take().expect("a pipe");
        pipe.write_all(input).expect("a reader");
        drop(pipe);
        self.waited(child)
    }

    /// One of the stage's commands, run to its end.
    pub fn ended(&self, command: &mut Command) -> Ended {
        self.waited(started(command))
    }

    pub fn waited(&self, child: Child) -> Ended {
        let output = child.wait_with_output().expect("the script ends");
        let text = |bytes: Vec<u8>| String::from_utf8_lossy(&bytes).into_owned();
        Ended {
            script: self.tested(),
            status: output.status.code(),
            out: text(output.stdout),
            err: text(output.stderr),
        }
    }
}

impl Drop for Stage {
    /// A folder that cannot be removed is no fault of the script.
    fn drop(&mut self) {
        let _ = fs::remove_dir_all(&self.folder);
    }
}

fn alone() -> MutexGuard<'static, ()> {
    ALONE.lock().unwrap_or_else(PoisonError::into_inner)
}

fn started(command: &mut Command) -> Child {
    let _alone = alone();
    command.spawn().expect("the script starts")
}

/// A file written next is newer by the clock of the file system.
pub fn pass_time() {
    thread::sleep(Duration::from_millis(20));
}
