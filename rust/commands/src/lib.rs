//! What the programs over the library share: stream files and numbers that they are given, an answer
//! on standard output or one line on standard error, and the status they end with. A program is a
//! file of `src/bin`, or a folder with its `main.rs`.

pub mod amount;
pub mod certificate;
pub mod markup;
pub mod picture;
pub mod pieces;
pub mod rows;
pub mod table;
pub mod trace;

use std::env;
use std::ffi::{OsStr, OsString};
use std::fmt::Display;
use std::fs::File;
use std::io::{self, ErrorKind, Read, Write};
use std::process::ExitCode;

use bezhantiru::{NO_BUFFER, NO_DELAY, Refusal, stream};
use reference::layout::StreamFile;

/// The status of what is refused or could not be read or written, of wrong usage, of an answer that
/// is a no, and of a program whose reader stopped early.
const NO_ANSWER: u8 = 1;
const WRONG_USAGE: u8 = 2;
pub const NO: u8 = 3;
const STOPPED: u8 = 141;

/// No accepted file is as long as this, so that what stands behind it decides nothing.
pub const MOST_BYTES: u64 = 65_537;

/// A program by its name.
#[derive(Clone, Copy, Debug)]
pub struct Program(pub &'static str);

impl Program {
    /// The answer to the program's arguments, or what is wrong with them or with what they name.
    pub fn answer(self, answered: Result<impl Into<Answer>, Problem>) -> ExitCode {
        match answered.map(Into::into) {
            Ok(answer) => self.write(&answer),
            Err(Problem { said, status }) => self.problem(&said, status),
        }
    }

    /// One line on standard error.
    fn problem(self, said: &str, status: u8) -> ExitCode {
        eprintln!("{}: {said}", self.0);
        ExitCode::from(status)
    }

    /// The answer on standard output.
    fn write(self, answer: &Answer) -> ExitCode {
        let mut out = io::stdout().lock();
        let written = out.write_all(answer.text.as_bytes());
        match written.and_then(|()| out.flush()) {
            Ok(()) => ExitCode::from(answer.status),
            Err(error) if error.kind() == ErrorKind::BrokenPipe => ExitCode::from(STOPPED),
            Err(error) => {
                let said = format!("the answer could not be written: {error}");
                self.problem(&said, NO_ANSWER)
            }
        }
    }
}

/// What is printed, and the status that the program then ends with.
#[derive(Clone, Debug, PartialEq, Eq)]
pub struct Answer {
    pub text: String,
    pub status: u8,
}

impl From<String> for Answer {
    fn from(text: String) -> Answer {
        Answer { text, status: 0 }
    }
}

/// Why there is no answer, in one line, and the status that it is told by.
#[derive(Clone, Debug, PartialEq, Eq)]
pub struct Problem {
    pub said: String,
    pub status: u8,
}

impl Problem {
    pub fn no_answer(said: impl ToString) -> Problem {
        Problem {
            said: said.to_string(),
            status: NO_ANSWER,
        }
    }

    /// What is wrong with a stream file, such as its refusal.
    pub fn of_file(file: &OsStr, wrong: impl Display) -> Problem {
        Problem::no_answer(format!("{}: {wrong}", name(file)))
    }

    /// What is said of a stream file that is refused. One that carries both marks still has a table.
    pub fn refused(file: &OsStr, refusal: Refusal) -> Problem {
        let still = match refusal {
            Refusal::BothLimitsNone => "; its table can still be printed by bin/loss-table",
            _ => "",
        };
        Problem::of_file(file, format!("{refusal}{still}"))
    }

    pub fn wrong_usage(said: impl ToString) -> Problem {
        Problem {
            said: said.to_string(),
            status: WRONG_USAGE,
        }
    }
}

/// As many arguments as a program takes, which are these in words.
pub fn arguments<const N: usize>(words: &str) -> Result<[OsString; N], Problem> {
    let found: Vec<OsString> = env::args_os().skip(1).collect();
    <[OsString; N]>::try_from(found).map_err(|_| Problem::wrong_usage(words))
}

/// What messages call a stream file, - being standard input.
fn name(file: &OsStr) -> String {
    if file == "-" {
        String::from("standard input")
    } else {
        format!("the file '{}'", file.display())
    }
}

/// As many bytes of a stream file as decide anything.
pub fn read(file: &OsStr) -> Result<Vec<u8>, Problem> {
    read_at_most(MOST_BYTES, file)
}

/// The first bytes of any file, at most so many.
pub fn read_at_most(most: u64, file: &OsStr) -> Result<Vec<u8>, Problem> {
    let mut bytes = Vec::new();
    let done = if file == "-" {
        io::stdin().take(most).read_to_end(&mut bytes)
    } else {
        File::open(file).and_then(|file| file.take(most).read_to_end(&mut bytes))
    };
    done.map_err(|error| Problem::no_answer(format!("{} could not be read: {error}", name(file))))?;
    Ok(bytes)
}

/// The numbers of a stream file that the library accepts, or its refusal.
pub fn accepted(bytes: &[u8]) -> Result<StreamFile, Refusal> {
    stream::counts(bytes)?;
    StreamFile::from_bytes(bytes).map_err(|_| Refusal::FileOfOtherLength)
}

/// A number in base ten that messages call by a name. What 32 bits do not hold is the largest number
/// that they do, which no table, window or slot may have either and which is refused with the same
/// number.
pub fn number(name: &str, word: &OsStr) -> Result<u32, Problem> {
    let word = word.to_string_lossy();
    if word.is_empty() || !word.bytes().all(|byte| byte.is_ascii_digit()) {
        let said = format!("{name} {word:?} is no number");
        return Err(Problem::wrong_usage(said));
    }
    Ok(word.parse().unwrap_or(u32::MAX))
}

/// The word for a limit that is none; its number in files, 255 or 4294967295, is taken too.
const NONE: &str = "none";

/// A delay limit in slots, or none.
pub fn delay(word: &OsStr) -> Result<u32, Problem> {
    if word == NONE {
        return Ok(NO_DELAY);
    }
    number("the delay limit", word).map_err(or_none)
}

/// A buffer limit in packets, or none. What 32 bits do not hold is not taken for none: it becomes a
/// number that is refused as well.
pub fn buffer(word: &OsStr) -> Result<u32, Problem> {
    if word == NONE {
        return Ok(NO_BUFFER);
    }
    let found = number("the buffer limit", word).map_err(or_none)?;
    let digits = word.to_string_lossy();
    let fits = found != NO_BUFFER || digits.trim_start_matches('0') == NO_BUFFER.to_string();
    Ok(if fits { found } else { NO_BUFFER - 1 })
}

fn or_none(problem: Problem) -> Problem {
    Problem {
        said: format!("{}, and not the word {NONE}", problem.said),
        ..problem
    }
}

/// The entries of a table, with spaces in between.
pub fn entries(table: &OsStr) -> Result<Vec<u32>, Problem> {
    let table = table.to_string_lossy();
    let entry = |word: &str| number("the table's entry", word.as_ref());
    let found: Result<_, _> = table.split_whitespace().map(entry).collect();
    found.map_err(|problem| Problem {
        said: format!("{}; entries have spaces in between", problem.said),
        ..problem
    })
}

#[cfg(test)]
mod tests {
    use super::*;

    #[test]
    fn numbers_and_words_that_are_none() {
        let number = |word: &str| number("the slot", word.as_ref());
        assert_eq!(number("0"), Ok(0));
        assert_eq!(number("007"), Ok(7));
        assert_eq!(number("4294967295"), Ok(u32::MAX));
        assert_eq!(number("4294967296"), Ok(u32::MAX));
        assert_eq!(number("99999999999999999999999999"), Ok(u32::MAX));
        for word in ["", "-1", "+1", "1.5", "1,000", "0x10", "two", "²", " 1"] {
            let said = format!("the slot {word:?} is no number");
            assert_eq!(number(word), Err(Problem::wrong_usage(said)));
        }
    }

    #[test]
    fn limits_are_numbers_or_none() {
        let delay = |word: &str| delay(word.as_ref()).map_err(|problem| problem.said);
        let buffer = |word: &str| buffer(word.as_ref()).map_err(|problem| problem.said);
        assert_eq!(delay("none"), Ok(NO_DELAY));
        assert_eq!(delay("255"), Ok(NO_DELAY));
        assert_eq!(delay("64"), Ok(64));
        assert_eq!(delay("99999999999999999999"), Ok(u32::MAX));
        for word in ["none", "4294967295", "0004294967295"] {
            assert_eq!(buffer(word), Ok(NO_BUFFER));
        }
        for word in ["4294967294", "4294967296", "99999999999999999999"] {
            assert_eq!(buffer(word), Ok(NO_BUFFER - 1), "{word}");
        }
        assert_eq!(buffer("007"), Ok(7));
        let said = "the delay limit \"None\" is no number, and not the word none";
        assert_eq!(delay("None"), Err(String::from(said)));
        let said = "the buffer limit \"-1\" is no number, and not the word none";
        assert_eq!(buffer("-1"), Err(String::from(said)));
    }

    #[test]
    fn tables_are_entries_with_spaces_in_between() {
        let entries = |table: &str| entries(table.as_ref()).map_err(|problem| problem.said);
        assert_eq!(entries("0 2 3"), Ok(vec![0, 2, 3]));
        assert_eq!(entries("  0\t2\n 3 "), Ok(vec![0, 2, 3]));
        assert_eq!(entries(""), Ok(vec![]));
        for (table, word) in [("0 2,3", "2,3"), ("0 x y", "x")] {
            let said =
                format!("the table's entry {word:?} is no number; entries have spaces in between");
            assert_eq!(entries(table), Err(said));
        }
    }

    #[test]
    fn a_file_that_is_not_there_has_no_bytes() {
        let there = read("/nowhere/at all".as_ref());
        let Problem { said, status } = there.expect_err("no such file");
        assert_eq!(status, NO_ANSWER);
        assert!(said.starts_with("the file '/nowhere/at all' could not be read: "));
    }
}
