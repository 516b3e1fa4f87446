//! An emulator's loop in Rust: reads one stream file, feeds its slots to the regulator one by one,
//! and prints the table of document 01, or the word refused and the number. The library judges the
//! file.
//!
//!     emulator FILE        or        emulator < FILE

use std::io::{self, BufWriter, Read, Write};
use std::{env, fs};

use bezhantiru::{Record, Refusal, Regulator, stream};
use reference::layout::StreamFile;

fn main() -> io::Result<()> {
    let bytes = read()?;
    let mut out = BufWriter::new(io::stdout().lock());
    match set_up(&bytes) {
        Ok((file, regulator)) => emulate(&file, regulator, &mut out)?,
        Err(refusal) => writeln!(out, "refused {}", refusal.number())?,
    }
    out.flush()
}

/// The file's numbers and a regulator for them, or the first refusal: the file's, or that of a set-up
/// with both limits none.
fn set_up(bytes: &[u8]) -> Result<(StreamFile, Regulator), Refusal> {
    stream::counts(bytes)?;
    let file = StreamFile::from_bytes(bytes).map_err(|_| Refusal::FileOfOtherLength)?;
    let (delay, buffer) = (file.header.delay, file.header.buffer);
    let regulator = Regulator::set_up(&file.table, delay, buffer)?;
    Ok((file, regulator))
}

fn read() -> io::Result<Vec<u8>> {
    match env::args_os().nth(1) {
        Some(path) => fs::read(path),
        None => {
            let mut bytes = Vec::new();
            io::stdin().read_to_end(&mut bytes)?;
            Ok(bytes)
        }
    }
}

/// The loop itself: one call for each slot. File and set-up are accepted, so no call is refused.
fn emulate(file: &StreamFile, mut regulator: Regulator, out: &mut impl Write) -> io::Result<()> {
    let mut bursts = file.burst_slots.iter().zip(&file.burst_counts).peekable();
    // The record of all slots together, before which nothing was held.
    let mut total = Record {
        held_before: 0,
        admitted: 0,
        dropped: 0,
        departed: 0,
    };
    let mut arrived = 0;
    writeln!(out, "slot arrived admitted dropped departed held")?;
    for slot in 1..=file.header.slots {
        let named = bursts.next_if(|(named, _)| **named == slot);
        let arrivals = named.map_or(0, |(_, count)| u64::from(*count));
        let record = regulator.slot(arrivals).map_err(io::Error::other)?;
        write_line(out, slot, arrivals, &record)?;
        arrived += arrivals;
        total.admitted += record.admitted;
        total.dropped += record.dropped;
        total.departed += record.departed;
    }
    write_line(out, "total", arrived, &total)
}

fn write_line(
    out: &mut impl Write,
    name: impl std::fmt::Display,
    arrived: u64,
    record: &Record,
) -> io::Result<()> {
    let Record {
        admitted,
        dropped,
        departed,
        ..
    } = record;
    let held = record.form_fill();
    writeln!(
        out,
        "{name} {arrived} {admitted} {dropped} {departed} {held}"
    )
}
