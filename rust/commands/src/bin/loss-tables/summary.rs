//! The summary: a heading, and a line for each stream.

use std::os::unix::ffi::OsStrExt;

use commands::table::Row;

use super::stream::{Told, Worked};

/// Folders that were made before there were certificates have a summary that begins so and ends there.
pub const BEGINS: &str = "name\tslots\tarrived\tadmitted\tdropped\tdeparted\tform peak\t\
                          bench peak\tstream SHA-256\ttable SHA-256";
const CERTIFICATES: &str = "\tcertified\tcertificate SHA-256\n";
/// What stands for a field that a stream has none of.
const NONE: &str = "-";

/// What a table sums up to.
#[derive(Clone, Copy, Debug, Default, PartialEq, Eq)]
pub struct Counts {
    pub slots: u64,
    pub arrived: u64,
    pub admitted: u64,
    pub dropped: u64,
    pub departed: u64,
    /// The highest fill at a slot's end.
    pub form_peak: u64,
    /// The highest before a slot's departures, when what is held after it and what departs in it are
    /// both there.
    pub bench_peak: u64,
}

impl Counts {
    pub fn of(rows: &[Row]) -> Counts {
        let sum = |of: fn(&Row) -> u64| rows.iter().map(of).sum();
        let peak = |of: fn(&Row) -> u64| rows.iter().map(of).max().unwrap_or(0);
        Counts {
            slots: rows.len() as u64,
            arrived: sum(|row| row.arrived),
            admitted: sum(|row| row.admitted),
            dropped: sum(|row| row.dropped),
            departed: sum(|row| row.departed),
            form_peak: peak(|row| row.held),
            bench_peak: peak(|row| row.held + row.departed),
        }
    }

    /// In the order of the summary.
    fn all(&self) -> [u64; 7] {
        [
            self.slots,
            self.arrived,
            self.admitted,
            self.dropped,
            self.departed,
            self.form_peak,
            self.bench_peak,
        ]
    }
}

/// The summary with these lines.
pub fn summary<'a>(lines: impl Iterator<Item = &'a [u8]>) -> Vec<u8> {
    let mut text = [BEGINS, CERTIFICATES].concat().into_bytes();
    lines.for_each(|line| text.extend_from_slice(line));
    text
}

/// The name as it is, then eleven fields; what a stream has none of is a dash.
pub fn line(worked: &Worked) -> Vec<u8> {
    let counts = match &worked.told {
        Told::Of(accepted) => Counts::of(&accepted.rows)
            .all()
            .map(|count| count.to_string()),
        Told::Refused(refusal) => {
            let mut fields = [(); 7].map(|()| String::from(NONE));
            fields[0] = refusal.to_string();
            fields
        }
    };
    let (certified, digest) = match worked.certified() {
        Some(certified) => (
            certified.found.certified().to_string(),
            &*certified.text.digest,
        ),
        None => (String::from(NONE), NONE),
    };
    let (stream, table) = (&worked.digest, &worked.table.digest);
    let counts = counts.join("\t");
    let rest = format!("\t{counts}\t{stream}\t{table}\t{certified}\t{digest}\n");
    [worked.name.as_bytes(), rest.as_bytes()].concat()
}
