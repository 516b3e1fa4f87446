//! What kind of file it was, so that a test can show that it met every kind.

use std::collections::BTreeMap;

use reference::closure::by_recursion;
use reference::refusal::Refusal;
use reference::regulator::{Limits, Row};
use reference::stream::{self, Stream};
use reference::trace;

/// How many files of each kind there were.
#[derive(Debug, Default)]
pub struct Tally {
    counts: BTreeMap<String, usize>,
}

impl Tally {
    pub fn add(&mut self, file: &[u8]) {
        for kind in kinds(file) {
            *self.counts.entry(kind).or_default() += 1;
        }
    }

    pub fn count(&self, kind: &str) -> usize {
        self.counts.get(kind).copied().unwrap_or(0)
    }
}

fn kinds(file: &[u8]) -> Vec<String> {
    match accepted_kinds(file) {
        Ok(kinds) => kinds.into_iter().map(String::from).collect(),
        Err(refusal) => vec![refusal.to_string()],
    }
}

fn accepted_kinds(file: &[u8]) -> Result<Vec<&'static str>, Refusal> {
    let stream = stream::read(file)?;
    let limits = Limits::from_numbers(stream.delay, stream.buffer)?;
    let rows = trace::rows(&stream)?;
    Ok(vec![
        table_kind(&stream),
        limits_kind(limits),
        trace_kind(&stream),
        loss_kind(&rows),
    ])
}

fn table_kind(stream: &Stream) -> &'static str {
    let table = &stream.table;
    if table.iter().all(|&entry| entry == 0) {
        "table of zeros"
    } else if by_recursion(table, table.len() - 1) == *table {
        "subadditive table"
    } else {
        "table that is not subadditive"
    }
}

fn limits_kind(limits: Limits) -> &'static str {
    match (limits.delay, limits.buffer) {
        (None, None) => "no limit",
        (None, Some(_)) => "buffer limit alone",
        (Some(_), None) => "delay limit alone",
        (Some(_), Some(_)) => "both limits",
    }
}

fn trace_kind(stream: &Stream) -> &'static str {
    if stream.arrivals.is_empty() {
        "no slots"
    } else if stream.arrivals.iter().all(|&count| count == 0) {
        "no arrivals"
    } else {
        "arrivals"
    }
}

fn loss_kind(rows: &[Row]) -> &'static str {
    if rows.iter().any(|row| row.dropped > 0) {
        "loss"
    } else {
        "no loss"
    }
}
