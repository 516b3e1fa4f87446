//! Anyone's permitted rows beside ours. Document 01, "The lowest loss curve".

use reference::permitted::{premise, totals};
use reference::regulator::Limits;
use tests_program::cases::{said, wide};

use crate::anyone::Asked;
use crate::whole_trace;

/// Our rows of the trace, in place of those there.
pub fn ours(asked: &Asked) -> Result<Asked, String> {
    let lengths = [asked.arrivals.len(); 3];
    let run = whole_trace::run(&asked.table, asked.limits, &asked.arrivals, lengths);
    said(run.outcome)?;
    let [admitted, _, departed] = run.lists;
    Ok(Asked {
        admitted,
        departed,
        ..asked.clone()
    })
}

/// Of rows that are permitted: under the premises neither total is ever above ours, so that no less is
/// lost after any slot. Without them that holds of the departed totals, and of the admitted ones by
/// every slot whose deadline lies in the trace.
pub fn check_lowest(asked: &Asked) -> Result<(), String> {
    let ours = ours(asked)?;
    let (delay, buffer) = asked.limits;
    let limits = said(Limits::from_numbers(delay.into(), buffer.into()))?;
    let slots = asked.arrivals.len();
    let judged = if premise(limits, &wide(&asked.arrivals)) {
        slots
    } else {
        slots.saturating_sub(delay as usize)
    };
    let [u, v, x, y] = [
        &asked.admitted,
        &asked.departed,
        &ours.admitted,
        &ours.departed,
    ]
    .map(|list| totals(&wide(list)));
    if let Some(slot) = (0..=judged).find(|&slot| u[slot] > x[slot]) {
        return Err(format!("{asked:?}: more admitted than ours by slot {slot}"));
    }
    if let Some(slot) = (0..=slots).find(|&slot| v[slot] > y[slot]) {
        return Err(format!("{asked:?}: more departed than ours by slot {slot}"));
    }
    Ok(())
}
