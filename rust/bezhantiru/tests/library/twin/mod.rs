//! A slot taken in both ways, by the lent regulator and over its parts.

use bezhantiru::boundary::{self, Regulator, SlotRow};

/// The answer of both; a difference in it, or in a number of the regulator afterwards, is a problem.
/// The regulator that is lent goes over its parts, a copy of it whole.
pub fn slot(regulator: &mut Regulator, arrivals: u64) -> Result<SlotRow, String> {
    let mut copy = regulator.clone();
    let by_parts = boundary::slot_in_place(regulator, arrivals);
    let whole = boundary::slot(&mut copy, arrivals);
    if by_parts != whole {
        return Err(format!(
            "{arrivals} arrivals: over parts {by_parts:?}, whole {whole:?}"
        ));
    }
    if *regulator != copy {
        return Err(format!(
            "{arrivals} arrivals: over parts {regulator:?}, whole {copy:?}"
        ));
    }
    Ok(by_parts)
}
