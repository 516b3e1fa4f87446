//! A picture of a stream's losses, as SVG: the totals, the loss curve and the fill, slot by slot, and
//! a rival's rows dashed beside them; what is drawn of ours is the proved program's table. Or what is
//! lost by the last slot over the buffer limit, as the library's whole-trace runs have it.
//!
//!     loss-curve PROGRAM FILE SLOTS ROWS BUFFERS DELAYS
//!
//! SLOTS and BUFFERS are A-B, ROWS is a file, DELAYS is d,d,..; each may be empty. With BUFFERS the
//! program is not run.

mod size_picture;
pub mod sizes;

use std::ffi::OsStr;
use std::ops::RangeInclusive;
use std::path::Path;
use std::process::ExitCode;

use commands::picture::Picture;
use commands::picture::curves::Curves;
use commands::rows::Rows;
use commands::table::{Row, Table, print};
use commands::{Problem, Program, accepted, arguments, delay, number, read};
use reference::layout::NO_DELAY;
use size_picture::{MOST_LINES, MOST_POINTS, SizePicture};
use sizes::Losses;

/// The greatest buffer limit and the longest delay limit that are numbers.
const MOST_BUFFER: u32 = 1_000_000;
const MOST_DELAY: u32 = 64;

fn main() -> ExitCode {
    Program("loss-curve").answer(drawn())
}

fn drawn() -> Result<String, Problem> {
    let words = "the program, a stream file, slots, a file of rows, buffer and delay limits";
    let [program, file, slots, rows, buffers, delays] = arguments(words)?;
    if buffers.is_empty() {
        drawn_by_slots(&program, &file, &slots, &rows)
    } else {
        drawn_by_buffers(&file, &buffers, &delays)
    }
}

fn drawn_by_slots(
    program: &OsStr,
    file: &OsStr,
    slots: &OsStr,
    rows: &OsStr,
) -> Result<String, Problem> {
    let bytes = read(file)?;
    let of_file = |wrong: String| Problem::of_file(file, wrong);
    let table = match print(program.as_ref(), &bytes).map_err(of_file)? {
        (_, Table::Of(table)) => table,
        (_, Table::Refused(refusal)) => return Err(of_file(refusal.to_string())),
    };
    let header = accepted(&bytes)
        .map_err(|refusal| of_file(refusal.to_string()))?
        .header;
    if table.is_empty() {
        return Err(no_slots(file));
    }
    let slots = asked(slots, table.len())?;
    let rival = (!rows.is_empty())
        .then(|| rival(rows, &table))
        .transpose()?;
    let ours = Curves::of_table(&table, &slots);
    let rival = rival.map(|rival| {
        let mut pairs = rival.admitted.into_iter().zip(rival.departed);
        let curves = Curves::of(&table, &slots, |_| {
            let (admitted, departed) = pairs.next().unwrap_or_default();
            (admitted.into(), departed.into())
        });
        (name(rows), curves)
    });
    let picture = Picture {
        name: name(file),
        delay: header.delay,
        buffer: header.buffer,
        slots,
        ours,
        rival,
    };
    Ok(picture.drawn())
}

/// A file with both limits none too: the buffer limits are those asked for.
fn drawn_by_buffers(file: &OsStr, buffers: &OsStr, delays: &OsStr) -> Result<String, Problem> {
    let stream = accepted(&read(file)?).map_err(|refusal| Problem::of_file(file, refusal))?;
    let arrivals = stream.arrivals();
    if arrivals.is_empty() {
        return Err(no_slots(file));
    }
    let buffers = asked_buffers(buffers)?;
    let every = (buffers.end() - buffers.start()) / MOST_POINTS + 1;
    let losses = |delay| Losses::of(&stream.table, delay, &arrivals, &buffers, every);
    let lines: Result<Vec<Losses>, _> = asked_delays(delays, stream.header.delay)?
        .into_iter()
        .map(losses)
        .collect();
    let picture = SizePicture {
        name: name(file),
        slots: arrivals.len(),
        buffer: stream.header.buffer,
        lines: lines.map_err(|refusal| Problem::of_file(file, refusal))?,
        buffers,
        every,
    };
    Ok(picture.drawn())
}

fn no_slots(file: &OsStr) -> Problem {
    Problem::of_file(file, "a stream of no slots has no curve")
}

/// A file's name, without its folder.
fn name(file: &OsStr) -> String {
    let name = Path::new(file).file_name().filter(|_| file != "-");
    name.map_or(String::from("standard input"), |name| {
        name.display().to_string()
    })
}

/// The slots asked for, or all.
fn asked(slots: &OsStr, all: usize) -> Result<RangeInclusive<usize>, Problem> {
    if slots.is_empty() {
        return Ok(1..=all);
    }
    match range(slots) {
        Some((first, last)) if 1 <= first && last as usize <= all => {
            Ok(first as usize..=last as usize)
        }
        _ => Err(Problem::wrong_usage(format!(
            "the slots {:?} are not A-B with A from 1 to B and B at most {all}",
            slots.to_string_lossy()
        ))),
    }
}

/// The buffer limits asked for.
fn asked_buffers(buffers: &OsStr) -> Result<RangeInclusive<u32>, Problem> {
    match range(buffers) {
        Some((first, last)) if last <= MOST_BUFFER => Ok(first..=last),
        _ => Err(Problem::wrong_usage(format!(
            "the buffer limits {:?} are not A-B with A from 0 to B and B at most 1,000,000",
            buffers.to_string_lossy()
        ))),
    }
}

/// The delay limits asked for, or the stream's own.
fn asked_delays(delays: &OsStr, own: u32) -> Result<Vec<u32>, Problem> {
    if delays.is_empty() {
        return Ok(vec![own]);
    }
    let words = delays.to_string_lossy();
    let limit = |word: &str| delay(word.as_ref()).ok().filter(is_limit);
    let found: Option<Vec<u32>> = words.split(',').map(limit).collect();
    let once = |found: &Vec<u32>| (1..found.len()).all(|at| !found[..at].contains(&found[at]));
    found
        .filter(|found| found.len() <= MOST_LINES)
        .filter(once)
        .ok_or_else(|| {
            Problem::wrong_usage(format!(
                "the delay limits {words:?} are not d,d,.. with each 0 to 64 or none, each once and at most {MOST_LINES}"
            ))
        })
}

fn is_limit(delay: &u32) -> bool {
    *delay <= MOST_DELAY || *delay == NO_DELAY
}

/// Two numbers A-B of which the first is not above the second.
fn range(words: &OsStr) -> Option<(u32, u32)> {
    let words = words.to_string_lossy();
    let (first, last) = words.split_once('-')?;
    let read = |word: &str| number("the end", word.as_ref()).ok();
    let (first, last) = (read(first)?, read(last)?);
    (first <= last).then_some((first, last))
}

fn rival(file: &OsStr, table: &[Row]) -> Result<Rows, Problem> {
    // No slot of an accepted file has more arrivals than 1,000,000.
    let arrivals: Vec<u32> = table.iter().map(|row| row.arrived as u32).collect();
    Rows::of_file(file, &arrivals)
}
