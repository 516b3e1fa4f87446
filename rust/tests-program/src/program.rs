//! The program under test: one stream file on standard input, its table on standard output.

use std::env;
use std::io::{self, Write};
use std::path::{Path, PathBuf};
use std::process::{Child, ChildStdin, Command, Output, Stdio};
use std::thread;
use std::time::Duration;

/// Long enough for the program to read one piece before the next is there.
const PAUSE: Duration = Duration::from_millis(2);

pub struct Program {
    path: PathBuf,
}

impl Program {
    /// The program that `LOSS_TABLE` names, or the one built in the repository.
    pub fn find() -> Result<Program, String> {
        let built = Path::new(env!("CARGO_MANIFEST_DIR")).join("../../target/bin/loss_table");
        let path = env::var_os("LOSS_TABLE").map_or(built, PathBuf::from);
        if path.is_file() {
            Ok(Program { path })
        } else {
            let path = path.display();
            Err(format!(
                "no program at {path}: build it, or set LOSS_TABLE to its absolute path"
            ))
        }
    }

    pub fn path(&self) -> &Path {
        &self.path
    }

    /// What the program prints for a file.
    pub fn print(&self, file: &[u8]) -> Result<String, String> {
        self.print_pieces(&[file])
    }

    /// The same when the file reaches standard input in pieces.
    pub fn print_pieces(&self, pieces: &[&[u8]]) -> Result<String, String> {
        let output = self.run(pieces);
        let output = output.map_err(|error| format!("{}: {error}", self.path.display()))?;
        let text = String::from_utf8_lossy(&output.stdout).into_owned();
        // The document leaves the exit status of a refused file open, but no run may be broken off.
        let refused = text.starts_with("refused ") && output.status.code().is_some();
        if output.status.success() || refused {
            return Ok(text);
        }
        let said = String::from_utf8_lossy(&output.stderr);
        Err(format!(
            "the program ended with {}\n{text}{said}",
            output.status
        ))
    }

    fn run(&self, pieces: &[&[u8]]) -> io::Result<Output> {
        let mut child = self.start()?;
        let pipe = child.stdin.take();
        thread::scope(|scope| {
            let feeding = scope.spawn(|| feed(pipe, pieces));
            let output = child.wait_with_output()?;
            match feeding.join() {
                Ok(fed) => fed.map(|()| output),
                Err(_) => Err(io::Error::other("feeding standard input failed")),
            }
        })
    }

    fn start(&self) -> io::Result<Child> {
        Command::new(&self.path)
            .stdin(Stdio::piped())
            .stdout(Stdio::piped())
            .stderr(Stdio::piped())
            .spawn()
    }
}

/// A program may end before it has read a file that is too long, so a broken pipe is no fault.
fn feed(pipe: Option<ChildStdin>, pieces: &[&[u8]]) -> io::Result<()> {
    let Some(mut pipe) = pipe else {
        return Ok(());
    };
    for (index, piece) in pieces.iter().enumerate() {
        if index > 0 {
            thread::sleep(PAUSE);
        }
        match pipe.write_all(piece) {
            Err(error) if error.kind() == io::ErrorKind::BrokenPipe => return Ok(()),
            written => written?,
        }
    }
    Ok(())
}
