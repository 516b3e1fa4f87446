//! Document 02, 2.7: previews beside the reference and beside the slots that they speak of.

use bezhantiru::boundary::PreviewRow;
use bezhantiru::{NO_DELAY, Preview, Refusal, Regulator, boundary};
use reference::layout::StreamFile;
use reference::{preview, stream};
use tests_program::cases::{for_each_drawn, said, wide};
use tests_program::dice::Dice;
use tests_program::draw;

use crate::ahead;
use crate::in_c::{archive, ran};
use crate::records::record;

const CALL_LISTS: usize = 20_000;
/// Slots of regulators under both limits, a preview before each.
const LONG_SLOTS: u32 = 3_000;
const MOST: u64 = 1_000_000;

/// A set-up on both sides, and the calls so far.
struct Pair {
    live: Regulator,
    reference: reference::regulator::Regulator,
    set_up: String,
    calls: Vec<u64>,
}

impl Pair {
    fn set_up(file: &StreamFile) -> Result<Pair, String> {
        let (table, delay, buffer) = (&file.table, file.header.delay, file.header.buffer);
        let (wide, d, q) = (wide(table), delay.into(), buffer.into());
        Ok(Pair {
            live: said(Regulator::set_up(table, delay, buffer))?,
            reference: said(reference::regulator::Regulator::set_up(&wide, d, q))?,
            set_up: format!("table {table:?}, d {delay}, q {buffer}"),
            calls: Vec::new(),
        })
    }

    /// The wrapper's and the boundary's preview are the reference's.
    fn check_preview(&self, arrivals: u64) -> Result<PreviewRow, String> {
        let row = ahead::preview(self.live.state(), arrivals)?;
        let found = self.live.preview(arrivals);
        let wanted = preview::preview(&self.reference, arrivals).map(in_words);
        let wanted = wanted.map_err(|refusal| u32::from(refusal.number()));
        if found == Preview::of_row(row) && found.map_err(Refusal::number) == wanted {
            return Ok(row);
        }
        let (set_up, calls) = (&self.set_up, &self.calls);
        Err(format!(
            "{set_up}, calls {calls:?}, preview of {arrivals}: found {found:?}, wanted {wanted:?}"
        ))
    }

    /// The next slot of both.
    fn slot(&mut self, arrivals: u64) -> Result<(), String> {
        self.calls.push(arrivals);
        let found = self.live.slot(arrivals).map(|record| record.departed);
        let wanted = self.reference.slot(arrivals).map(|row| row.departed);
        let wanted = wanted.map_err(|refusal| u32::from(refusal.number()));
        if found.map_err(Refusal::number) == wanted {
            Ok(())
        } else {
            Err(format!("{} {:?}: {found:?}", self.set_up, self.calls))
        }
    }
}

/// The reference's preview, in the library's words.
fn in_words(wanted: preview::Preview) -> Preview {
    Preview {
        record: record(&wanted.record),
        headroom: wanted.headroom,
    }
}

/// Numbers to ask about: at the headroom and beside it, at every limit, some, and refused ones.
fn asked(headroom: u64, arrivals: u64, dice: &mut Dice) -> u64 {
    let few = u64::from(dice.below(20));
    let near = dice.pick([headroom.saturating_sub(1), headroom, headroom + 1]);
    let refused = dice.pick([MOST + 1, (1 << 32) + few, u64::MAX - few]);
    dice.pick([
        0,
        few,
        near,
        near,
        arrivals,
        arrivals,
        MOST - 1,
        MOST,
        refused,
    ])
}

/// Every call of a list with previews in between, some of them refused, and refused slots too.
fn check_calls(file: &StreamFile, dice: &mut Dice) -> Result<(), String> {
    let arrivals = said(stream::read(&file.to_bytes()))?;
    let mut pair = Pair::set_up(file)?;
    for &count in &arrivals.arrivals {
        let headroom = pair.check_preview(count)?.headroom;
        for _ in 0..dice.below(4) {
            pair.check_preview(asked(headroom, count, dice))?;
        }
        if dice.below(8) == 0 {
            pair.slot(dice.pick([MOST + 1, u64::MAX]))?;
        }
        pair.slot(count)?;
    }
    pair.check_preview(MOST)?;
    Ok(())
}

#[test]
fn lists_of_calls() {
    for_each_drawn(CALL_LISTS, |dice| check_calls(&draw::any(dice), dice));
}

/// Packets that wait under both limits, beside the reference.
#[test]
fn long_lists_of_calls() {
    for_each_drawn(4, |dice| {
        let file = draw::limited(dice);
        let rate = file.table[file.table.len() - 1] / file.header.last_window;
        let mut pair = Pair::set_up(&file)?;
        let mut full = 0;
        for _ in 0..LONG_SLOTS {
            // On average more than the envelope lets go in the long run.
            let most = 3 * dice.pick([rate, file.table[1]]) + 2;
            let count = u64::from(dice.below(most.min(1_000_001)));
            let seen = pair.check_preview(count)?;
            full += u32::from(seen.dropped > 0);
            pair.slot(count)?;
        }
        if full > 0 {
            Ok(())
        } else {
            Err(String::from("no packet was dropped, so little was tried"))
        }
    });
}

/// Sources that send no more than the headroom lose nothing, and those that send one more lose it.
#[test]
fn within_the_headroom_nothing_is_dropped() {
    for_each_drawn(2_000, |dice| {
        let mut pair = Pair::set_up(&draw::limited(dice))?;
        for _ in 0..40 {
            let headroom = pair.check_preview(0)?.headroom;
            let within = [headroom, u64::from(dice.below(headroom as u32 + 1))];
            for packets in within {
                let seen = pair.check_preview(packets)?;
                if (seen.admitted, seen.dropped) != (packets, 0) {
                    return Err(format!("{}: {seen:?}", pair.set_up));
                }
            }
            if headroom < MOST && pair.check_preview(headroom + 1)?.dropped != 1 {
                return Err(format!("{}: more than {headroom}", pair.set_up));
            }
            pair.slot(dice.pick(within))?;
        }
        Ok(())
    });
}

/// Document 01's row, d 1 and q 9: 5 packets, none, 4, none.
#[test]
fn previews_of_a_row() {
    let mut live = Regulator::set_up(&[0, 2, 3], 1, 9).expect("an accepted set-up");
    for (arrivals, headroom) in [(5, 3), (0, 2), (4, 3), (0, 2)] {
        let seen = live.preview(arrivals).expect("an accepted preview");
        assert_eq!(seen.headroom, headroom);
        assert_eq!(live.slot(arrivals), Ok(seen.record));
    }
}

#[test]
fn a_steady_million_has_room_for_a_million() {
    let live = Regulator::set_up(&[0, 1_000_000], NO_DELAY, 1_000_000);
    let mut live = live.expect("an accepted set-up");
    for _ in 0..100 {
        let seen = live.preview(MOST).expect("an accepted preview");
        assert_eq!((seen.headroom, seen.record.dropped), (MOST, 0));
        live.slot(MOST).expect("an accepted slot");
    }
}

fn refused(number: u32) -> PreviewRow {
    PreviewRow {
        number,
        held_before: 0,
        admitted: 0,
        dropped: 0,
        departed: 0,
        headroom: 0,
    }
}

/// 8 for the number alone, 9 once all slots are taken, 8 before 9; refused answers are all 0.
#[test]
fn refusals_in_their_order() {
    let mut live = Regulator::set_up(&[0, 2, 3], 1, 9).expect("an accepted set-up");
    let too_many = [MOST + 1, 1 << 32, (1 << 32) + 5, 1 << 63, u64::MAX];
    for slots in 0..=1_000_000 {
        assert_eq!(live.state().slots, slots);
        if slots.is_multiple_of(50_000) {
            for arrivals in too_many {
                assert_eq!(ahead::preview(live.state(), arrivals), Ok(refused(8)));
                assert_eq!(live.preview(arrivals), Err(Refusal::TooManyArrivals));
            }
        }
        let seen = live.preview(MOST);
        match live.slot(MOST) {
            Ok(record) => assert_eq!(seen.map(|seen| seen.record), Ok(record)),
            Err(refusal) => assert_eq!((seen, refusal), (Err(refusal), Refusal::SlotsUsedUp)),
        }
    }
    for arrivals in [0, 1, MOST] {
        assert_eq!(ahead::preview(live.state(), arrivals), Ok(refused(9)));
        assert_eq!(live.preview(arrivals), Err(Refusal::SlotsUsedUp));
    }
}

#[test]
fn the_regulator_of_a_refused_set_up_has_no_next_slot() {
    for (table, delay) in [(&[][..], 1), (&[0, 3, 2], 1), (&[0, 2, 3], 65)] {
        let made = boundary::set_up(table, delay, 9).regulator;
        for (arrivals, number) in [(0, 9), (MOST, 9), (MOST + 1, 8)] {
            assert_eq!(ahead::preview(&made, arrivals), Ok(refused(number)));
        }
    }
}

/// The bytes are compared in C, where padding may be read.
#[test]
fn previews_from_c_change_no_byte() {
    if let Some(said) = ran("preview", &[archive()]) {
        assert_eq!(
            said,
            "3771 accepted, 3794 refused, 0 changed, 0 different\n"
        );
    }
}
