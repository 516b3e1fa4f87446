//! The whole-trace run. Document 01, "One slot", last paragraph, and "Refused, by place".

use crate::refusal::{self, Refusal};
use crate::regulator::{Limits, Regulator, Row};
use crate::stream::Stream;

/// What an accepted run fills the three lent lists with.
#[derive(Clone, Debug, PartialEq, Eq)]
pub struct Lists {
    pub admitted: Vec<u64>,
    pub dropped: Vec<u64>,
    pub departed: Vec<u64>,
}

impl Lists {
    /// Those of slots 1, 2, ..
    pub(crate) fn of_rows(rows: &[Row]) -> Lists {
        Lists {
            admitted: rows.iter().map(|row| row.admitted).collect(),
            dropped: rows.iter().map(|row| row.dropped).collect(),
            departed: rows.iter().map(|row| row.departed).collect(),
        }
    }
}

/// The three lists, or the first refusal of the run. `list_lengths` are the lengths of the lent
/// lists for admitted, dropped and departed packets.
pub fn run(
    table: &[u64],
    delay: u64,
    buffer: u64,
    arrivals: &[u64],
    list_lengths: [usize; 3],
) -> Result<Lists, Refusal> {
    refusal::trace(table, delay, buffer, arrivals, list_lengths)?;
    let rows = rows_of(table, delay, buffer, arrivals)?;
    Ok(Lists::of_rows(&rows))
}

/// One row for each slot of a stream; with both limits none they are the regulator's alone.
pub fn rows(stream: &Stream) -> Result<Vec<Row>, Refusal> {
    rows_of(&stream.table, stream.delay, stream.buffer, &stream.arrivals)
}

fn rows_of(table: &[u64], delay: u64, buffer: u64, arrivals: &[u64]) -> Result<Vec<Row>, Refusal> {
    refusal::table(table)?;
    let mut regulator = Regulator::fresh(table, Limits::from_numbers(delay, buffer)?);
    arrivals
        .iter()
        .map(|&count| regulator.slot(count))
        .collect()
}
