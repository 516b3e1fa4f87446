//! Document 02, 2.1: one record a slot, two readers of it, and the peak of each.

use std::array;

use bezhantiru::{Record, Regulator, boundary};
use reference::fill::{Metered, Peaks};
use reference::layout::StreamFile;
use reference::stream;
use tests_program::cases::{for_each_drawn, said};
use tests_program::dice::Dice;
use tests_program::draw;

use crate::exact;
use crate::records::record;
use crate::refused_between::calls;
use crate::twin;

const CALL_LISTS: usize = 20_000;
const TRIPLES: usize = 1_000_000;

/// One call as both sides answer it: the record and its two fills, or the number; and the peaks
/// after it.
type Outcome = (Result<(Record, [u64; 2]), u32>, Peaks);

fn by_library(live: &mut Regulator, arrivals: u64) -> Outcome {
    let answer = live
        .slot(arrivals)
        .map(|record| (record, [record.form_fill(), record.bench_fill()]))
        .map_err(|refusal| refusal.number());
    let peaks = Peaks {
        form: live.form_peak(),
        bench: live.bench_peak(),
    };
    (answer, peaks)
}

fn by_reference(metered: &mut Metered, arrivals: u64) -> Outcome {
    let answer = metered
        .slot(arrivals)
        .map(|wanted| (record(&wanted), [wanted.form_fill(), wanted.bench_fill()]))
        .map_err(|refusal| refusal.number().into());
    (answer, metered.peaks())
}

/// Every call of a list, the prescribed slot and the one over lent parts included.
fn check_calls(file: &StreamFile, dice: &mut Dice) -> Result<(), String> {
    let stream = said(stream::read(&file.to_bytes()))?;
    let (delay, buffer) = (file.header.delay, file.header.buffer);
    let mut live = said(Regulator::set_up(&file.table, delay, buffer))?;
    let mut state = live.state().clone();
    let metered = Metered::set_up(&stream.table, stream.delay, stream.buffer);
    let mut metered = said(metered)?;
    let calls = calls(&stream.arrivals, dice);
    for (place, &arrivals) in calls.iter().enumerate() {
        let found = by_library(&mut live, arrivals);
        let wanted = by_reference(&mut metered, arrivals);
        twin::slot(&mut state, arrivals)?;
        if found != wanted || state != *live.state() {
            let (table, calls) = (&file.table, &calls[..=place]);
            return Err(format!(
                "table {table:?}, d {delay}, q {buffer}, calls {calls:?}: found {found:?}, wanted {wanted:?}"
            ));
        }
    }
    Ok(())
}

#[test]
fn lists_of_calls() {
    for_each_drawn(CALL_LISTS, |dice| check_calls(&draw::any(dice), dice));
}

/// Bella's 30 and 36, read from the record of slot 1.
#[test]
fn form_and_bench_read_bella_from_one_record() {
    let file = StreamFile::from_bytes(include_bytes!("../../../../streams/bella.stream"));
    let file = file.expect("the right length");
    let set_up = Regulator::set_up(&file.table, file.header.delay, file.header.buffer);
    let mut live = set_up.expect("an accepted set-up");
    assert_eq!(file.burst_slots[0], 1);
    let record = live.slot(file.burst_counts[0].into());
    let record = record.expect("an accepted slot");
    assert_eq!((record.form_fill(), record.bench_fill()), (30, 36));
    assert_eq!((live.form_peak(), live.bench_peak()), (30, 36));
}

#[test]
fn a_set_up_has_no_peaks() {
    for (table, delay) in [
        (&[0, 2, 3][..], 1),
        (&[0, 3, 2], 1),
        (&[], 1),
        (&[0, 1], 65),
    ] {
        let made = boundary::set_up(table, delay, 9).regulator;
        assert_eq!((made.form_peak, made.bench_peak), (0, 0), "{table:?}");
    }
}

/// Any number, mostly at or near a limit of 64 bits or of the document.
fn any_number(dice: &mut Dice) -> u64 {
    let any = u64::from_le_bytes(array::from_fn(|_| dice.byte()));
    let few = u64::from(dice.below(4));
    let (half, most) = (1 << 63, u64::MAX);
    dice.pick([
        few,
        1_000_000 + few,
        1_000_000_000_000 + few,
        (1 << 32) + few,
        half - few,
        half + few,
        most - few,
        most - any % 1_000,
        any,
        any >> 1,
        any >> 32,
    ])
}

fn check_fills(dice: &mut Dice) -> Result<(), String> {
    let [held_before, admitted, any] = array::from_fn(|_| any_number(dice));
    // Often as much departs as was there, or one packet more or less.
    let full = held_before.wrapping_add(admitted);
    let departed = dice.pick([any, any, full, full.wrapping_add(1), full.wrapping_sub(1)]);
    let record = Record {
        held_before,
        admitted,
        dropped: any,
        departed,
    };
    let found = (record.form_fill(), record.bench_fill());
    let wanted = (
        exact::form_fill(held_before, admitted, departed),
        exact::bench_fill(held_before, admitted),
    );
    if found == wanted {
        Ok(())
    } else {
        Err(format!("{record:?}: found {found:?}, wanted {wanted:?}"))
    }
}

#[test]
fn fills_of_any_numbers() {
    for_each_drawn(TRIPLES, check_fills);
}

#[test]
fn fills_by_hand() {
    let most = u64::MAX;
    for (held_before, admitted, departed, form, bench) in [
        (0, 0, 0, 0, 0),
        (0, 0, 1, 0, 0),
        (3, 4, 2, 5, 7),
        (3, 4, 7, 0, 7),
        (3, 4, 8, 0, 7),
        (most, 0, 0, most, most),
        (most, 1, 0, most, most),
        (most, 1, 1, most, most),
        (most, 1, 2, most - 1, most),
        (most, most, most, most, most),
        (1 << 63, 1 << 63, most, 1, most),
        (1 << 63, (1 << 63) - 1, most, 0, most),
        (0, 5, most, 0, 5),
    ] {
        let record = Record {
            held_before,
            admitted,
            dropped: 0,
            departed,
        };
        let found = (record.form_fill(), record.bench_fill());
        assert_eq!(found, (form, bench), "{record:?}");
    }
}
