//! A square's run over lent lists, and what the reference fills them with.

use bezhantiru::square;
use tests_program::cases::said;
use tests_program::square::{Drawn, Square};

use crate::lent::{Run, lend};

/// A run over lists of the given lengths.
pub fn run(
    square: &Square,
    (delay, buffer): (u32, u32),
    arrivals: &[u32],
    lengths: [usize; 3],
) -> Run {
    lend(lengths, |lists| {
        square::run(square, delay, buffer, arrivals, lists)
    })
}

/// A run over lists as long as the trace.
pub fn run_drawn(drawn: &Drawn) -> Run {
    let lengths = [drawn.arrivals.len(); 3];
    run(
        &drawn.square,
        (drawn.delay, drawn.buffer),
        &drawn.arrivals,
        lengths,
    )
}

/// The run as the reference has it, which is accepted.
pub fn by_reference(drawn: &Drawn) -> Result<Run, String> {
    let wanted = said(drawn.lists())?;
    let narrow = |counts: Vec<u64>| counts.into_iter().map(|count| count as u32).collect();
    Ok(Run {
        outcome: Ok(()),
        lists: [wanted.admitted, wanted.dropped, wanted.departed].map(narrow),
    })
}
