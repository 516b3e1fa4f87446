//! All short traces, in order. Document 02, 2.14.

use crate::refusal::{self, Refusal};
use crate::tiny;

/// Every trace of the slots with 0 to 3 arrivals in each, by dictionary order of the counts, trace
/// after trace; or the first refusal of 24, 11.
pub fn list(slots: u64, list_length: usize) -> Result<Vec<u64>, Refusal> {
    refusal::short_traces(slots, list_length)?;
    let mut traces: Vec<Vec<u64>> = tiny::traces(slots as u32).collect();
    // Lists of counts are compared count by count from the first, as words in a dictionary are.
    traces.sort();
    Ok(traces.concat())
}
