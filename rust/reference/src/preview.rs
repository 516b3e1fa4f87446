//! What would happen to n packets now. Document 02, 2.7.

use crate::fill::Record;
use crate::refusal::{MOST_PACKETS, Refusal};
use crate::regulator::Regulator;

/// An accepted preview.
#[derive(Clone, Copy, Debug, PartialEq, Eq)]
pub struct Preview {
    /// What the next slot would answer.
    pub record: Record,
    /// The packets that would be admitted out of 1,000,000.
    pub headroom: u64,
}

/// The next slot's record for n packets, or its refusal; the regulator is only looked at.
pub fn preview(regulator: &Regulator, arrivals: u64) -> Result<Preview, Refusal> {
    Ok(Preview {
        record: next_record(regulator, arrivals)?,
        headroom: next_record(regulator, MOST_PACKETS)?.admitted,
    })
}

fn next_record(regulator: &Regulator, arrivals: u64) -> Result<Record, Refusal> {
    let held_before = regulator.totals().held(regulator.slots_taken());
    let row = regulator.clone().slot(arrivals)?;
    Ok(Record::of_row(&row, held_before))
}

#[cfg(test)]
mod tests {
    use super::*;
    use crate::layout::{NO_BUFFER, NO_DELAY};

    fn regulator(delay: u64, buffer: u64, arrivals: &[u64]) -> Regulator {
        let mut regulator = Regulator::set_up(&[0, 2, 3], delay, buffer).expect("a set-up");
        for &count in arrivals {
            regulator.slot(count).expect("an accepted slot");
        }
        regulator
    }

    #[test]
    fn the_next_slot_gives_what_the_preview_gave() {
        for (delay, buffer) in [(1, 9), (0, 9), (1, 0), (255, 4), (2, NO_BUFFER.into())] {
            for arrivals in [&[][..], &[5], &[5, 0], &[5, 0, 4], &[1, 1, 1, 9, 0]] {
                let before = regulator(delay, buffer, arrivals);
                for n in [0, 1, 2, 3, 4, 5, 9, 20, 999_999, 1_000_000] {
                    let seen = preview(&before, n).expect("an accepted preview");
                    let mut after = before.clone();
                    let row = after.slot(n).expect("an accepted slot");
                    assert_eq!(seen.record.admitted, row.admitted);
                    assert_eq!(seen.record.dropped, row.dropped);
                    assert_eq!(seen.record.departed, row.departed);
                    assert_eq!(seen.record.form_fill(), row.held);
                    assert_eq!(row.admitted, n.min(seen.headroom));
                }
            }
        }
    }

    /// Document 01's row, d 1 and q 9: X is at most f(2) = 3, f(3) = 5 and f(4) = 6 after slots 1, 2
    /// and 3, and 3 after slots 1 and 2.
    #[test]
    fn headroom_of_a_row() {
        let headroom = |arrivals: &[u64]| {
            let seen = preview(&regulator(1, 9, arrivals), 0);
            seen.expect("an accepted preview").headroom
        };
        assert_eq!(headroom(&[]), 3);
        assert_eq!(headroom(&[5]), 2);
        assert_eq!(headroom(&[5, 0]), 3);
    }

    #[test]
    fn an_empty_buffer_of_a_million_has_room_for_a_million() {
        let regulator = regulator(NO_DELAY.into(), 1_000_000, &[]);
        let seen = preview(&regulator, 5).expect("an accepted preview");
        assert_eq!((seen.headroom, seen.record.admitted), (1_000_000, 5));
        assert_eq!(seen.record.held_before, 0);
    }

    #[test]
    fn a_refused_preview_gives_the_slot_s_number() {
        let refused = preview(&regulator(1, 9, &[5]), 1_000_001);
        assert_eq!(refused, Err(Refusal::TooManyArrivals));
    }
}
