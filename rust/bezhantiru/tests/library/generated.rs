//! Traces, tables and limits drawn at random: the live regulator with its records, fills and peaks,
//! and the whole-trace run answer what the reference answers, refused slots included.

use bezhantiru::{NO_BUFFER, Record, Refusal, Regulator};
use reference::fill::{self, Peaks};
use reference::layout::StreamFile;
use reference::regulator::Row;
use reference::stream::{self, Stream};
use reference::trace;
use tests_program::cases::{for_each_drawn, said, same, wide};
use tests_program::dice::Dice;
use tests_program::draw;

use crate::lent::{Run, refused};
use crate::records::record;
use crate::twin;
use crate::whole_trace::run;

const STREAMS: usize = 40_000;
const LONG_STREAMS: usize = 12;
/// Far more slots than a trace has. The reference looks back to slot 0 in every slot, so that twice
/// as many take it four times as long.
const LIVE_SLOTS: u32 = 12_000;
const LIMITED_SLOTS: u32 = 40_000;

fn narrow(counts: &[u64]) -> Vec<u32> {
    counts.iter().map(|&count| count as u32).collect()
}

/// One drawn stream, as the boundary and as the reference take it.
struct Drawn {
    table: Vec<u32>,
    limits: (u32, u32),
    arrivals: Vec<u32>,
    stream: Stream,
}

fn drawn(file: StreamFile) -> Result<Drawn, String> {
    let stream = said(stream::read(&file.to_bytes()))?;
    Ok(Drawn {
        table: file.table,
        limits: (file.header.delay, file.header.buffer),
        arrivals: narrow(&stream.arrivals),
        stream,
    })
}

fn check_stream(file: StreamFile, dice: &mut Dice) -> Result<(), String> {
    let drawn = drawn(file)?;
    let rows = said(trace::rows(&drawn.stream))?;
    check_live(&drawn, &rows, dice)?;
    check_run(&drawn, &rows)?;
    check_lengths(&drawn, dice)
}

/// Slot by slot, with refused calls in between that leave the regulator as it was; ends with the
/// peaks. A difference comes with the set-up and the arrivals of all slots.
fn check_live(drawn: &Drawn, rows: &[Row], dice: &mut Dice) -> Result<Peaks, String> {
    check_slots(drawn, rows, dice).map_err(|problem| {
        let arrivals: Vec<u64> = rows.iter().map(|row| row.arrived).collect();
        let (table, limits) = (&drawn.table, drawn.limits);
        format!("{problem}\ntable {table:?}, d and q {limits:?}, arrivals {arrivals:?}")
    })
}

fn check_slots(drawn: &Drawn, rows: &[Row], dice: &mut Dice) -> Result<Peaks, String> {
    let (delay, buffer) = drawn.limits;
    let mut live = said(Regulator::set_up(&drawn.table, delay, buffer))?;
    let mut peaks = Peaks::default();
    same("fresh peaks", peaks_of(&live), peaks)?;
    for (index, (row, wanted)) in rows.iter().zip(&fill::records(rows)).enumerate() {
        if dice.below(4) == 0 {
            check_refused_slot(&mut live, dice)?;
        }
        let slot = format!("slot {}", index + 1);
        let found = check_slot(&mut live, row.arrived)?;
        same(&slot, found, Ok(record(wanted)))?;
        check_fills(row, wanted).map_err(|problem| format!("{slot}, {problem}"))?;
        peaks = peaks.raised_by(wanted);
        same(&format!("peaks after {slot}"), peaks_of(&live), peaks)?;
    }
    check_refused_slot(&mut live, dice)?;
    check_bounds(drawn, peaks)?;
    Ok(peaks)
}

fn peaks_of(live: &Regulator) -> Peaks {
    Peaks {
        form: live.form_peak(),
        bench: live.bench_peak(),
    }
}

/// Both readers of the record read what the reference reads; the order form's is the held total.
fn check_fills(row: &Row, wanted: &fill::Record) -> Result<(), String> {
    let found = record(wanted);
    same("form fill", found.form_fill(), wanted.form_fill())?;
    same("bench fill", found.bench_fill(), wanted.bench_fill())?;
    same("held", found.form_fill(), row.held)
}

/// No slot has more than q before its departures, so none ends with more.
fn check_bounds(drawn: &Drawn, peaks: Peaks) -> Result<(), String> {
    let (_, buffer) = drawn.limits;
    if buffer == NO_BUFFER {
        return Ok(());
    }
    let most = u64::from(buffer);
    if peaks.form <= most && peaks.bench <= most {
        Ok(())
    } else {
        Err(format!("{peaks:?} with q {most}"))
    }
}

/// The wrapper's slot, which leaves what both slots of the boundary leave.
fn check_slot(live: &mut Regulator, arrivals: u64) -> Result<Result<Record, Refusal>, String> {
    let mut state = live.state().clone();
    twin::slot(&mut state, arrivals)?;
    let found = live.slot(arrivals);
    same("after a slot", live.state(), &state)?;
    Ok(found)
}

fn check_refused_slot(live: &mut Regulator, dice: &mut Dice) -> Result<(), String> {
    let before = live.clone();
    let few = u64::from(dice.below(20));
    let arrivals = dice.pick([1_000_001, 1_000_002 + few, (1 << 32) + few, u64::MAX - few]);
    let found = check_slot(live, arrivals)?;
    same("refused slot", found, Err(Refusal::TooManyArrivals))?;
    same("after a refused slot", &*live, &before)
}

fn check_run(drawn: &Drawn, rows: &[Row]) -> Result<(), String> {
    let column = |field: fn(&Row) -> u64| rows.iter().map(|row| field(row) as u32).collect();
    let wanted = Run {
        outcome: Ok(()),
        lists: [
            column(|row| row.admitted),
            column(|row| row.dropped),
            column(|row| row.departed),
        ],
    };
    let lengths = [drawn.arrivals.len(); 3];
    let found = run(&drawn.table, drawn.limits, &drawn.arrivals, lengths);
    same("run", found, wanted)
}

/// One list shorter or longer than the trace: 11, and all three as they were.
fn check_lengths(drawn: &Drawn, dice: &mut Dice) -> Result<(), String> {
    let slots = drawn.arrivals.len();
    let mut lengths = [slots; 3];
    lengths[dice.place(3)] = dice.pick([slots + 1, slots + 100, slots.saturating_sub(1), 0]);
    if lengths == [slots; 3] {
        return Ok(());
    }
    let found = run(&drawn.table, drawn.limits, &drawn.arrivals, lengths);
    same(
        "other lengths",
        found,
        refused(Refusal::ListOfOtherLength, lengths),
    )
}

#[test]
fn streams() {
    for_each_drawn(STREAMS, |dice| check_stream(draw::any(dice), dice));
}

#[test]
fn long_streams() {
    for_each_drawn(LONG_STREAMS, |dice| {
        check_stream(draw::stream(dice, 1, 64, 4_096, 4_096), dice)
    });
}

/// So many slots of a live regulator beside the reference, and their peaks.
fn check_long(file: StreamFile, slots: u32, dice: &mut Dice) -> Result<Peaks, String> {
    let (delay, buffer) = (u64::from(file.header.delay), u64::from(file.header.buffer));
    let table = wide(&file.table);
    let reference = reference::regulator::Regulator::set_up(&table, delay, buffer);
    let mut reference = said(reference)?;
    let most = 3 * file.table[file.table.len() - 1] / file.header.last_window + 2;
    let arrivals = (0..slots).map(|_| dice.below(most.min(1_000_001)));
    let rows: Result<Vec<Row>, _> = arrivals
        .map(|count| reference.slot(u64::from(count)))
        .collect();
    let rows = said(rows)?;
    check_live(&drawn(file)?, &rows, dice)
}

#[test]
fn live_beyond_the_longest_trace() {
    for_each_drawn(4, |dice| {
        check_long(draw::stream(dice, 1, 64, 0, 0), LIVE_SLOTS, dice)?;
        Ok(())
    });
}

#[test]
fn live_far_beyond_it_under_both_limits() {
    for_each_drawn(4, |dice| {
        let peaks = check_long(draw::limited(dice), LIMITED_SLOTS, dice)?;
        if peaks.form > 0 {
            Ok(())
        } else {
            Err(String::from("no packet ever waited, so little was tried"))
        }
    });
}
