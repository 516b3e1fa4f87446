//! The proved program and the tables that it prints, read again. Document 01, "The stream file".

use std::io::{self, ErrorKind, Write};
use std::path::Path;
use std::process::{ChildStdin, Command, Stdio};
use std::thread;

use bezhantiru::Refusal;

pub const HEADING: &str = "slot arrived admitted dropped departed held";

/// A slot's packets, and those held after it.
#[derive(Clone, Copy, Debug, PartialEq, Eq)]
pub struct Row {
    pub arrived: u64,
    pub admitted: u64,
    pub dropped: u64,
    pub departed: u64,
    pub held: u64,
}

/// What a table says of its stream.
#[derive(Clone, Debug, PartialEq, Eq)]
pub enum Table {
    Of(Vec<Row>),
    Refused(Refusal),
}

impl Table {
    /// A whole table, or none.
    pub fn read(text: &[u8]) -> Option<Table> {
        let text = str::from_utf8(text).ok()?.strip_suffix('\n')?;
        if let Some(number) = text.strip_prefix("refused ") {
            let refusal = Refusal::listed(number.parse().ok()?)?;
            return Some(Table::Refused(refusal));
        }
        let mut lines = text.split('\n');
        let heading = lines.next()? == HEADING;
        let totals = numbers::<5>(lines.next_back()?.strip_prefix("total ")?).is_some();
        let rows: Option<Vec<Row>> = (1..)
            .zip(lines)
            .map(|(slot, line)| row(slot, line))
            .collect();
        rows.filter(|_| heading && totals).map(Table::Of)
    }
}

fn row(slot: u64, line: &str) -> Option<Row> {
    let [found, arrived, admitted, dropped, departed, held] = numbers(line)?;
    (found == slot).then_some(Row {
        arrived,
        admitted,
        dropped,
        departed,
        held,
    })
}

fn numbers<const N: usize>(line: &str) -> Option<[u64; N]> {
    let found: Option<Vec<u64>> = line.split(' ').map(|word| word.parse().ok()).collect();
    found?.try_into().ok()
}

/// The table that the program prints for the bytes of a stream file, in print and read again.
pub fn print(program: &Path, bytes: &[u8]) -> Result<(Vec<u8>, Table), String> {
    let broke_off = |how: &str| format!("the program broke off {how}");
    let output =
        run(program, bytes).map_err(|error| format!("the program could not be run: {error}"))?;
    if !output.status.success() {
        return Err(broke_off(&format!("with {}", output.status)));
    }
    match Table::read(&output.stdout) {
        Some(table) => Ok((output.stdout, table)),
        None => Err(broke_off("before its last line")),
    }
}

fn run(program: &Path, bytes: &[u8]) -> io::Result<std::process::Output> {
    let mut child = Command::new(program)
        .stdin(Stdio::piped())
        .stdout(Stdio::piped())
        .spawn()?;
    let pipe = child.stdin.take();
    thread::scope(|scope| {
        let feeding = scope.spawn(|| feed(pipe, bytes));
        let output = child.wait_with_output()?;
        let fed = feeding.join();
        fed.unwrap_or_else(|_| Err(io::Error::other("it could not be fed")))?;
        Ok(output)
    })
}

/// A program may end before it has read a file that is too long.
fn feed(pipe: Option<ChildStdin>, bytes: &[u8]) -> io::Result<()> {
    match pipe.map(|mut pipe| pipe.write_all(bytes)) {
        Some(Err(error)) if error.kind() != ErrorKind::BrokenPipe => Err(error),
        _ => Ok(()),
    }
}
