//! The stream file. Document 01, "The stream file".

use crate::boundary;
use crate::refusal::Refusal;

/// The part of an accepted file that holds the counts, one for each burst in 4 bytes each, least
/// significant byte first; or the first refusal of 12, 1, 10, 13, 2, the entries, 6, 7, 14, 8.
pub fn counts(file: &[u8]) -> Result<&[u8], Refusal> {
    let part = boundary::counts_part(file);
    Refusal::check(part.number)?;
    let first = part.from as usize;
    Ok(&file[first..first + part.bytes as usize])
}
