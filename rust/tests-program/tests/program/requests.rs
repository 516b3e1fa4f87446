//! What the reference answers for document 02, beside a second way to work it out, on streams drawn
//! at random.

use reference::bucket::{self, Bucket, Device};
use reference::chain::{self, Chain};
use reference::closure::by_recursion;
use reference::fill::{self, Peaks, Record};
use reference::layout::{NO_BUFFER, NO_DELAY, StreamFile};
use reference::path;
use reference::piece;
use reference::preview::preview;
use reference::regulator::{Limits, Regulator};
use reference::stream::{self, Stream};
use reference::trace;
use tests_program::cases::{for_each_drawn, said, same};
use tests_program::dice::{Dice, seed};
use tests_program::draw;

const STREAMS: usize = 2_000;

fn drawn(dice: &mut Dice) -> Result<Stream, String> {
    let file: StreamFile = draw::stream(dice, 1, 12, 0, 40);
    said(stream::read(&file.to_bytes()))
}

fn limits(stream: &Stream) -> Result<Limits, String> {
    said(Limits::from_numbers(stream.delay, stream.buffer))
}

/// One to four buckets whose envelope has the stream's rate, more or less.
fn profile(dice: &mut Dice, stream: &Stream) -> Vec<Bucket> {
    let rate = stream.table[stream.table.len() - 1] / (stream.table.len() as u64 - 1);
    let mut number = || {
        let any = u64::from(dice.below(3 * rate as u32 + 3));
        dice.pick([0, 1, rate, any, any, 1_000_000]).min(1_000_000)
    };
    let count = number() % 4 + 1;
    (0..count).map(|_| (number(), number())).collect()
}

/// One bucket of the device as it is to be built: the least of X(s) + rate × (t-s) + burst over the
/// slots s so far, for the clipper with its burst enlarged and for the regulator.
struct Levels {
    rate: u64,
    bursts: [Option<u64>; 2],
    levels: [Option<u64>; 2],
}

impl Levels {
    fn new(&(rate, burst): &Bucket, limits: Limits) -> Levels {
        let by_delay = limits.delay.map(|delay| rate * delay as u64);
        let bursts = [by_delay.map(|by| burst + by), Some(burst)];
        Levels {
            rate,
            bursts,
            levels: bursts,
        }
    }

    /// The most that may be admitted, and may have departed, by the next slot.
    fn bounds(&self) -> [u64; 2] {
        self.levels
            .map(|level| level.map_or(u64::MAX, |level| level + self.rate))
    }

    fn advance(&mut self, admitted: u64) {
        for (level, burst) in self.levels.iter_mut().zip(self.bursts) {
            *level = level
                .zip(burst)
                .map(|(level, burst)| (level + self.rate).min(admitted + burst));
        }
    }
}

/// The device's records by its levels.
fn by_levels(profile: &[Bucket], limits: Limits, arrivals: &[u64]) -> Vec<Record> {
    let mut buckets: Vec<Levels> = profile.iter().map(|b| Levels::new(b, limits)).collect();
    let (mut admitted, mut departed) = (0, 0);
    let mut records = Vec::new();
    for &count in arrivals {
        let bound = |place: usize| {
            let bounds = buckets.iter().map(|bucket| bucket.bounds()[place]);
            bounds.fold(u64::MAX, u64::min)
        };
        let within = limits.buffer.map_or(u64::MAX, |buffer| departed + buffer);
        let now_admitted = bound(0).min(admitted + count).min(within);
        let now_departed = bound(1).min(now_admitted);
        records.push(Record {
            held_before: admitted - departed,
            admitted: now_admitted - admitted,
            dropped: admitted + count - now_admitted,
            departed: now_departed - departed,
        });
        (admitted, departed) = (now_admitted, now_departed);
        buckets
            .iter_mut()
            .for_each(|bucket| bucket.advance(admitted));
    }
    records
}

#[test]
fn buckets_by_their_levels() {
    for_each_drawn(STREAMS, |dice| {
        let stream = drawn(dice)?;
        let profile = profile(dice, &stream);
        let mut device = said(Device::set_up(&profile, stream.delay, stream.buffer))?;
        let records: Result<Vec<Record>, String> = stream
            .arrivals
            .iter()
            .map(|&count| said(device.slot(count)))
            .collect();
        let records = records?;
        let wanted = by_levels(&profile, limits(&stream)?, &stream.arrivals);
        same("records", &records, &wanted)?;
        same("peaks", device.peaks(), Peaks::over(&wanted))
    });
}

#[test]
fn bucket_losses_keep_the_bound() {
    for_each_drawn(STREAMS, |dice| {
        let stream = drawn(dice)?;
        let profile = profile(dice, &stream);
        let Stream {
            delay,
            buffer,
            arrivals,
            ..
        } = &stream;
        let losses = said(bucket::losses(&profile, *delay, *buffer, arrivals))?;
        same("bound", losses.keep_the_bound(), true)
    });
}

/// A path's entrance and last stage are one regulator with one merged table: at each window the least
/// of the entries of those tables that reach it.
#[test]
fn paths_by_one_merged_table() {
    for_each_drawn(STREAMS, |dice| {
        let stream = drawn(dice)?;
        let (delay, buffer, arrivals) = (stream.delay, stream.buffer, stream.arrivals);
        let mut tables = vec![stream.table];
        for _ in 0..dice.below(4) {
            tables.push(drawn(dice)?.table);
        }
        let longest = tables.iter().map(Vec::len).max().unwrap_or(0);
        let least = |window: usize| tables.iter().filter_map(|table| table.get(window)).min();
        let merged: Vec<u64> = (0..longest).filter_map(least).copied().collect();
        let slots = arrivals.len();
        let lengths = [slots, slots, tables.len() * slots];
        let found = said(path::run(&tables, delay, buffer, &arrivals, lengths))?;
        let wanted = said(trace::run(&merged, delay, buffer, &arrivals, [slots; 3]))?;
        same("admitted", &found.admitted, &wanted.admitted)?;
        same("dropped", &found.dropped, &wanted.dropped)?;
        let last = &found.departed[(tables.len() - 1) * slots..];
        same("departed", last, &wanted.departed)
    });
}

#[test]
fn chains_make_up_what_was_admitted() {
    for_each_drawn(STREAMS, |dice| {
        let Stream {
            table,
            delay,
            buffer,
            arrivals,
        } = drawn(dice)?;
        let slots = arrivals.len();
        let lists = said(trace::run(&table, delay, buffer, &arrivals, [slots; 3]))?;
        let slot = dice.place(slots + 1);
        let lengths = [slots + 1; 3];
        let found = said(chain::find(
            &table,
            delay,
            buffer,
            &arrivals,
            slot as u64,
            lengths,
        ))?;
        let admitted: u64 = lists.admitted[..slot].iter().sum();
        same("sum", found.amounts.iter().sum(), admitted)?;
        let places = found.slots.len() as u64;
        let longer = |list: &[u64], dice: &mut Dice| {
            let mut list = list.to_vec();
            list.resize_with(slots + 1, || dice.below(9).into());
            list
        };
        let mut lent = Chain {
            slots: longer(&found.slots, dice),
            marks: longer(&found.marks, dice),
            amounts: longer(&found.amounts, dice),
        };
        let check = |lent: &Chain| {
            said(chain::check(
                &table,
                delay,
                buffer,
                &arrivals,
                slot as u64,
                lent,
                places,
            ))
        };
        same("found", check(&lent)?, true)?;
        let place = dice.place(places as usize);
        lent.amounts[place] += 1;
        same("changed", check(&lent)?, false)
    });
}

#[test]
fn previews_are_the_next_slot() {
    for_each_drawn(STREAMS, |dice| {
        let stream = drawn(dice)?;
        let live = Regulator::set_up(&stream.table, stream.delay, stream.buffer);
        let mut live = said(live)?;
        for &count in &stream.arrivals {
            let n = u64::from(dice.below(1_000_001)).min(dice.pick([5, 100, 1_000_000]));
            let seen = said(preview(&live, n))?;
            let mut other = live.clone();
            let row = said(other.slot(n))?;
            same("admitted", row.admitted, n.min(seen.headroom))?;
            same("record", seen.record.form_fill(), row.held)?;
            said(live.slot(count))?;
        }
        let rows = said(trace::rows(&stream))?;
        let wanted = rows.iter().fold((0, 0), |(form, bench), row| {
            (row.held.max(form), (row.held + row.departed).max(bench))
        });
        let peaks = Peaks::over(&fill::records(&rows));
        same("peaks", (peaks.form, peaks.bench), wanted)
    });
}

#[test]
fn pieces_are_the_smallest_that_fit() {
    for_each_drawn(STREAMS, |dice| {
        let table = drawn(dice)?.table;
        let window = dice.place(200);
        let f = by_recursion(&table, window);
        let found = said(piece::question(&table, window as u64))?;
        same("packets", found.packets, f[window])?;
        let fits = |k: &usize| table[*k] + f[window - k] == f[window];
        let fitting: Vec<usize> = (1..table.len().min(window + 1)).filter(fits).collect();
        same("piece", found.piece, fitting.first().copied().unwrap_or(0))
    });
}

/// None is drawn as often as numbers are, or little was tried; both none are no set-up's.
#[test]
fn limits_of_every_kind_are_drawn() {
    let seed = seed().unwrap_or_else(|problem| panic!("{problem}"));
    let mut kinds = [0; 4];
    for number in 0..STREAMS as u64 {
        let stream = drawn(&mut Dice::new(seed, number)).expect("an accepted stream");
        let no_delay = usize::from(stream.delay == u64::from(NO_DELAY));
        let no_buffer = usize::from(stream.buffer == u64::from(NO_BUFFER));
        kinds[2 * no_delay + no_buffer] += 1;
    }
    assert!(kinds[..3].iter().all(|&count| count >= 100), "{kinds:?}");
    assert_eq!(kinds[3], 0);
}
