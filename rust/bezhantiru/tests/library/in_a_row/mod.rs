//! A path's run over lent lists, and what the reference fills them with.

use bezhantiru::{Refusal, boundary, path};
use tests_program::cases::said;
use tests_program::path::Drawn;

use crate::lent::{Run, lend};

/// The wrapper's run over lists of the given lengths.
pub fn run<Table: AsRef<[u32]>>(
    tables: &[Table],
    (delay, buffer): (u32, u32),
    arrivals: &[u32],
    lengths: [usize; 3],
) -> Run {
    lend(lengths, |lists| {
        path::run(tables, delay, buffer, arrivals, lists)
    })
}

/// The boundary's run, where the number of stages is a number of its own.
pub fn run_first(
    stages: u32,
    tables: [&[u32]; 4],
    (delay, buffer): (u32, u32),
    arrivals: &[u32],
    lengths: [usize; 3],
) -> Run {
    lend(lengths, |lists| {
        let number = boundary::path_run(stages, tables, delay, buffer, arrivals, lists);
        Refusal::listed(number).map_or(Ok(()), Err)
    })
}

/// The run as the reference has it, which is accepted.
pub fn by_reference(drawn: &Drawn) -> Result<Run, String> {
    let wanted = said(drawn.lists())?;
    let narrow = |counts: Vec<u64>| counts.into_iter().map(|count| count as u32).collect();
    Ok(Run {
        outcome: Ok(()),
        lists: [wanted.admitted, wanted.dropped, wanted.departed].map(narrow),
    })
}
