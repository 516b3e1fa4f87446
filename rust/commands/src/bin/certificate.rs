//! A stream file's table with the reason why nobody could have lost fewer. The library runs the trace,
//! finds the links of every slot and checks anyone's.
//!
//!     certificate FILE        or        certificate --check FILE TABLE CERTIFICATE

use std::ffi::{OsStr, OsString};
use std::process::ExitCode;

use commands::certificate::{Certificate, MOST_BYTES, Stream, Table, verdict};
use commands::{Problem, Program, arguments, read, read_at_most};

const USAGE: &str = "a stream file, or --check, a stream file, its table and its certificate";

fn main() -> ExitCode {
    Program("certificate").answer(answered())
}

fn answered() -> Result<String, Problem> {
    if let Ok([file]) = arguments(USAGE) {
        let found = Certificate::of_file(&read(&file)?);
        let found = found.map_err(|refusal| Problem::refused(&file, refusal))?;
        return Ok(found.to_string());
    }
    let [word, files @ ..]: [OsString; 4] = arguments(USAGE)?;
    if word != "--check" {
        return Err(Problem::wrong_usage(USAGE));
    }
    checked(&files)
}

/// The verdict on a stream file, a table and a certificate, of which each is judged before the next
/// is read.
fn checked([stream, table, certificate]: &[OsString; 3]) -> Result<String, Problem> {
    let text = |file: &OsStr| read_at_most(MOST_BYTES, file);
    let found = Stream::read(&read(stream)?);
    let found = found.map_err(|refusal| Problem::of_file(stream, refusal))?;
    let rows = Table::read(&text(table)?, &found);
    let rows = rows.map_err(|wrong| Problem::of_file(table, wrong))?;
    let verdict = verdict(&text(certificate)?, &found, &rows);
    verdict.map_err(|wrong| Problem::of_file(certificate, wrong))
}
