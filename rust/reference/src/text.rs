//! The printed table. Document 01, "The stream file", last paragraph.

use crate::refusal::Refusal;
use crate::regulator::Row;
use crate::{stream, trace};

/// What the program prints for a file, byte for byte.
pub fn printed(file: &[u8]) -> String {
    match stream::read(file).and_then(|stream| trace::rows(&stream)) {
        Ok(rows) => table(&rows),
        Err(refusal) => refused(refusal),
    }
}

/// A heading, one line for each slot, and a line of totals.
pub fn table(rows: &[Row]) -> String {
    let mut text = String::from("slot arrived admitted dropped departed held\n");
    for (index, row) in rows.iter().enumerate() {
        text += &line(&(index + 1).to_string(), row);
    }
    text + &line("total", &total(rows))
}

fn line(name: &str, row: &Row) -> String {
    let Row {
        arrived,
        admitted,
        dropped,
        departed,
        held,
    } = row;
    format!("{name} {arrived} {admitted} {dropped} {departed} {held}\n")
}

/// The four sums and the final held.
fn total(rows: &[Row]) -> Row {
    Row {
        arrived: rows.iter().map(|row| row.arrived).sum(),
        admitted: rows.iter().map(|row| row.admitted).sum(),
        dropped: rows.iter().map(|row| row.dropped).sum(),
        departed: rows.iter().map(|row| row.departed).sum(),
        held: rows.last().map_or(0, |row| row.held),
    }
}

/// The word refused and the number.
pub fn refused(refusal: Refusal) -> String {
    format!("refused {}\n", refusal.number())
}
