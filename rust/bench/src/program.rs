//! The whole program on a file of 4,096 slots, from its start to its end, beside a program in Rust
//! that prints the same: this one, called with the word `table`.

use std::fs::{self, File};
use std::io;
use std::path::{Path, PathBuf};
use std::process::{Command, Stdio};
use std::{env, hint};

use crate::clock::{Timed, Work};
use crate::count;

/// The argument with which this program prints a table.
pub const TABLE: &str = "table";

pub struct Programs {
    library: PathBuf,
    rust: PathBuf,
    file: PathBuf,
}

impl Programs {
    /// None where the proved program is not built.
    pub fn find() -> io::Result<Option<Programs>> {
        let repository = Path::new(env!("CARGO_MANIFEST_DIR")).join("../..");
        let built = repository.join("target/bin/loss_table");
        let library = env::var_os("LOSS_TABLE").map_or(built, PathBuf::from);
        let programs = Programs {
            rust: env::current_exe()?,
            file: repository.join("streams/long.stream"),
            library,
        };
        Ok(programs.library.is_file().then_some(programs))
    }

    /// The library's program first, if both print the sample's table.
    pub fn time(&self) -> io::Result<Timed> {
        let table = fs::read(self.file.with_extension("table"))?;
        if self.by_library()? != table || self.by_rust()? != table {
            return Err(io::Error::other("not the table of `streams/long.table`"));
        }
        let library: Work<'_> = Box::new(|| {
            let _ = hint::black_box(self.by_library());
        });
        let rust: Work<'_> = Box::new(|| {
            let _ = hint::black_box(self.by_rust());
        });
        Ok(Timed::in_turn(&mut [library, rust]))
    }

    /// Instructions of the library's program, and of the one in Rust.
    pub fn count(&self) -> Result<[u64; 2], String> {
        Ok([
            count::of_program(&self.library, &[], &self.file)?,
            count::of_program(&self.rust, &[TABLE], &self.file)?,
        ])
    }

    fn by_library(&self) -> io::Result<Vec<u8>> {
        self.printed(&mut Command::new(&self.library))
    }

    fn by_rust(&self) -> io::Result<Vec<u8>> {
        self.printed(Command::new(&self.rust).arg(TABLE))
    }

    fn printed(&self, program: &mut Command) -> io::Result<Vec<u8>> {
        let input = Stdio::from(File::open(&self.file)?);
        Ok(program.stdin(input).output()?.stdout)
    }
}
