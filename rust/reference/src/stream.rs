//! Reading a stream file that may be refused. Document 01, "The stream file".

use crate::layout::{Header, StreamFile};
use crate::refusal::{self, Refusal};

/// What an accepted file asks the whole-trace run for.
#[derive(Clone, Debug, PartialEq, Eq)]
pub struct Stream {
    pub table: Vec<u64>,
    pub delay: u64,
    pub buffer: u64,
    pub arrivals: Vec<u64>,
}

/// The stream in the file, or the first refusal in the file's order.
pub fn read(file: &[u8]) -> Result<Stream, Refusal> {
    refusal::file(file)?;
    let numbers = StreamFile::from_bytes(file).map_err(|_| Refusal::FileOfOtherLength)?;
    Ok(Stream {
        table: numbers.table.iter().copied().map(u64::from).collect(),
        delay: u64::from(numbers.header.delay),
        buffer: u64::from(numbers.header.buffer),
        arrivals: numbers.arrivals().into_iter().map(u64::from).collect(),
    })
}

/// The 4m bytes that hold the counts, or the empty part at the start of a refused file.
pub fn counts(file: &[u8]) -> &[u8] {
    match (refusal::file(file), Header::read(file)) {
        (Ok(()), Some(header)) => &file[header.count_bytes()],
        _ => &file[..0],
    }
}
