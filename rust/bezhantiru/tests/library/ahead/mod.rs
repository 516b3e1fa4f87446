//! A preview beside the slots that it speaks of, whoever made the regulator.

use bezhantiru::boundary::{self, PreviewRow, Regulator, SlotRow};

const MOST_PACKETS: u64 = 1_000_000;

/// The preview's answer. A problem unless it is what the next slot answers, the headroom what that
/// slot admits out of 1,000,000, the admitted packets the smaller of both numbers, and every number of
/// the regulator as it was.
pub fn preview(regulator: &Regulator, arrivals: u64) -> Result<PreviewRow, String> {
    let before = regulator.clone();
    let seen = boundary::preview(regulator, arrivals);
    let slot = boundary::slot(&mut before.clone(), arrivals);
    let wanted = of_slots(&slot, &boundary::slot(&mut before.clone(), MOST_PACKETS));
    if seen != wanted {
        return Err(format!(
            "{arrivals} arrivals: preview {seen:?}, wanted {wanted:?} of {before:?}"
        ));
    }
    if seen.number == 0 && seen.admitted != arrivals.min(seen.headroom) {
        return Err(format!("{arrivals} arrivals: {seen:?} of {before:?}"));
    }
    if *regulator != before {
        return Err(format!("a preview changed {before:?}"));
    }
    Ok(seen)
}

/// The answer that one slot and another one of 1,000,000 packets in its place settle.
fn of_slots(slot: &SlotRow, full: &SlotRow) -> PreviewRow {
    PreviewRow {
        number: slot.number,
        held_before: slot.held_before,
        admitted: slot.admitted,
        dropped: slot.dropped,
        departed: slot.departed,
        headroom: if slot.number == 0 { full.admitted } else { 0 },
    }
}
