//! The sample streams of the repository.

use std::fs;

use crate::stage::repository;

pub const SAMPLES: [&str; 6] = [
    "bella",
    "six-packet-burst",
    "delay-only",
    "no-limits",
    "refused",
    "long",
];
/// Those that a set-up accepts.
pub const ACCEPTED: [&str; 4] = ["bella", "six-packet-burst", "delay-only", "long"];

/// One of a sample's files: its `stream`, `txt` or `table`, or the `certificate` of one that is accepted.
pub fn bytes(name: &str, ending: &str) -> Vec<u8> {
    let path = repository(&format!("streams/{name}.{ending}"));
    fs::read(&path).unwrap_or_else(|problem| panic!("{}: {problem}", path.display()))
}
