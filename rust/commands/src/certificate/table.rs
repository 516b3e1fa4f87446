//! A printed table held to its stream file: the library judges the rows, and all other numbers are
//! redone.

use super::printed::{Printed, has_to_be, narrow, numbers};
use super::slots::totals;
use crate::accepted;
use crate::table::HEADING;
use bezhantiru::{Refusal, Regulator, Rows, Rule, Verdict, judge};

/// A stream that a regulator can be set up for.
pub struct Stream {
    pub table: Vec<u32>,
    pub delay: u32,
    pub buffer: u32,
    pub arrivals: Vec<u32>,
}

impl Stream {
    /// That of a stream file, or the first refusal of the file, 23.
    pub fn read(file: &[u8]) -> Result<Stream, Refusal> {
        let file = accepted(file)?;
        let (delay, buffer) = (file.header.delay, file.header.buffer);
        Regulator::set_up(&file.table, delay, buffer)?;
        Ok(Stream {
            arrivals: file.arrivals(),
            table: file.table,
            delay,
            buffer,
        })
    }
}

/// The counts of a table that are permitted.
pub struct Table {
    pub admitted: Vec<u32>,
    pub departed: Vec<u32>,
}

impl Table {
    /// Those of a text whose every number is right; or the line that is wrong, or the first slot and
    /// what fails there.
    pub fn read(text: &[u8], stream: &Stream) -> Result<Table, String> {
        let slots = stream.arrivals.len();
        let printed = Printed::read(text, slots, HEADING, numbers::<5>)?;
        let column = |place: usize| printed.rows.iter().map(|row| narrow(row[place])).collect();
        let table = Table {
            admitted: column(1),
            departed: column(3),
        };
        let broken = table.broken(stream)?;
        let [a, u, v] = table.totals(stream);
        printed.check_rows(|slot, &[arrived, admitted, dropped, _, held]| {
            has_to_be("arrived", arrived, a[slot] - a[slot - 1])?;
            match broken {
                Some((broken, rule)) if broken == slot => return Err(words(rule)),
                _ => (),
            }
            has_to_be("dropped", dropped, arrived - admitted)?;
            has_to_be("held", held, u[slot] - v[slot])
        })?;
        let (a, u, v) = (a[slots], u[slots], v[slots]);
        printed.check_last(&format!("total {a} {u} {} {v} {}", a - u, u - v))?;
        Ok(table)
    }

    pub fn rows(&self) -> Rows<'_> {
        Rows {
            admitted: &self.admitted,
            departed: &self.departed,
        }
    }

    /// A, U and V by slots 0, 1, ..: the packets arrived, admitted and departed.
    pub fn totals(&self, stream: &Stream) -> [Vec<u64>; 3] {
        [&stream.arrivals, &self.admitted, &self.departed].map(|counts| totals(counts))
    }

    /// The first slot in which a rule is broken, and the first rule in it.
    fn broken(&self, stream: &Stream) -> Result<Option<(usize, Rule)>, String> {
        let (delay, buffer) = (stream.delay, stream.buffer);
        let judged = judge(&stream.table, delay, buffer, &stream.arrivals, self.rows());
        match judged.map_err(|refusal| refusal.to_string())? {
            Verdict::Permitted => Ok(None),
            Verdict::Breaks { rule, slot } => Ok(Some((slot as usize, rule))),
        }
    }
}

/// What is said of a rule that is broken.
fn words(rule: Rule) -> String {
    let words = match rule {
        Rule::Arrivals => "more is admitted than arrives",
        Rule::Departures => "more has departed than was admitted",
        Rule::Envelope { window } => {
            return format!("more departs in {window} slots than the table has");
        }
        Rule::Buffer => "more is there before departures than the buffer limit",
        Rule::Delay => "less has departed than is due by the delay limit",
        Rule::Unlisted(number) => return format!("rule {number} is broken"),
    };
    String::from(words)
}
