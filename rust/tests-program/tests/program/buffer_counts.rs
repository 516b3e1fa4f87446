//! The two counts of the buffer, before departures (document 02, 2.9) and after them (document 01), on
//! streams, devices and paths drawn at random: where they give the same totals, and where they do not.

use std::sync::atomic::{AtomicUsize, Ordering};

use reference::bucket;
use reference::closure::by_recursion;
use reference::fill::{self, Peaks};
use reference::layout::NO_BUFFER;
use reference::path;
use reference::regulator::{Count, Limits, Totals, next_admitted};
use reference::stream::{self, Stream};
use reference::trace;
use tests_program::cases::{for_each_drawn, said, same, wide};
use tests_program::dice::Dice;
use tests_program::{draw, path as paths, profile, samples};

const STREAMS: usize = 4_000;

/// Limits, arrivals and an envelope that reaches far enough for them.
struct Case {
    f: Vec<u64>,
    limits: Limits,
    arrivals: Vec<u64>,
}

impl Case {
    fn of_stream(stream: &Stream) -> Result<Case, String> {
        let limits = said(Limits::from_numbers(stream.delay, stream.buffer))?;
        let last = stream.arrivals.len() + limits.delay.unwrap_or(0);
        Ok(Case {
            f: by_recursion(&stream.table, last),
            limits,
            arrivals: stream.arrivals.clone(),
        })
    }

    fn of_buckets(drawn: &profile::Drawn) -> Result<Case, String> {
        let limits = said(Limits::from_numbers(
            drawn.delay.into(),
            drawn.buffer.into(),
        ))?;
        let last = drawn.arrivals.len() + limits.delay.unwrap_or(0);
        let buckets = drawn.buckets();
        Ok(Case {
            f: (0..=last).map(|w| bucket::envelope(&buckets, w)).collect(),
            limits,
            arrivals: drawn.arrivals.clone(),
        })
    }

    fn of_path(drawn: &paths::Drawn) -> Result<Case, String> {
        let limits = said(Limits::from_numbers(
            drawn.delay.into(),
            drawn.buffer.into(),
        ))?;
        let last = drawn.arrivals.len() + limits.delay.unwrap_or(0);
        Ok(Case {
            f: path::entrance_envelope(&drawn.wide_tables(), last),
            limits,
            arrivals: wide(&drawn.arrivals),
        })
    }

    /// Of a stream, a device or a path.
    fn drawn(dice: &mut Dice) -> Result<Case, String> {
        match dice.below(3) {
            0 => Case::of_stream(&stream(dice)?),
            1 => Case::of_buckets(&profile::any(dice)),
            _ => Case::of_path(&paths::any(dice)),
        }
    }

    fn by(&self, count: Count) -> Totals {
        Totals::over(&self.f, self.limits.counted(count), &self.arrivals)
    }

    fn before_and_after(&self) -> (Totals, Totals) {
        let [before, after] = [Count::BeforeDepartures, Count::AfterDepartures];
        (self.by(before), self.by(after))
    }
}

fn stream(dice: &mut Dice) -> Result<Stream, String> {
    let file = draw::stream(dice, 1, 12, 0, 40);
    said(stream::read(&file.to_bytes()))
}

/// How many of the drawn cases a check was about, which has to be many.
#[derive(Default)]
struct Tally(AtomicUsize);

impl Tally {
    fn add(&self, so: bool) {
        self.0.fetch_add(usize::from(so), Ordering::Relaxed);
    }

    fn check(&self, what: &str) {
        let count = self.0.load(Ordering::Relaxed);
        assert!(count > STREAMS / 50, "{what}: {count} of {STREAMS}");
    }
}

fn loses(totals: &Totals) -> bool {
    totals.arrived != totals.admitted
}

/// They part in the first slot whose fill before departures is above q by the count after them; there
/// the fill before departures is q.
#[test]
fn they_part_where_the_bench_reads_more_than_q() {
    let (parted, together) = (Tally::default(), Tally::default());
    for_each_drawn(STREAMS, |dice| {
        let case = Case::drawn(dice)?;
        let (before, after) = case.before_and_after();
        let bench = |totals: &Totals, t: usize| totals.admitted[t] - totals.departed[t - 1];
        let too_full = |t: &usize| case.limits.buffer.is_some_and(|q| bench(&after, *t) > q);
        let differ = |t: &usize| {
            before.admitted[*t] != after.admitted[*t] || before.departed[*t] != after.departed[*t]
        };
        let slots = 1..=case.arrivals.len();
        let first = slots.clone().find(differ);
        same("slot", first, slots.clone().find(too_full))?;
        if let Some(slot) = first {
            same("fill", Some(bench(&before, slot)), case.limits.buffer)?;
        }
        let no_more = |&t: &usize| before.admitted[t] <= after.admitted[t];
        same("never more", slots.clone().find(|t| !no_more(t)), None)?;
        parted.add(first.is_some());
        together.add(first.is_none() && loses(&after));
        Ok(())
    });
    parted.check("traces on which they part");
    together.check("traces with losses on which they do not");
}

#[test]
fn without_a_buffer_limit_they_are_one() {
    let lossy = Tally::default();
    for_each_drawn(STREAMS, |dice| {
        let mut case = Case::drawn(dice)?;
        case.limits.buffer = None;
        let (before, after) = case.before_and_after();
        lossy.add(loses(&before));
        same("totals", before, after)
    });
    lossy.check("traces with losses");
}

/// Where f(k+d) is nowhere above f(k-1) + q the buffer term is never the smaller one. That is so from
/// q = f(1+d) on, f being subadditive.
#[test]
fn where_the_delay_limit_binds_first_they_are_one() {
    let lossy = Tally::default();
    for_each_drawn(STREAMS, |dice| {
        let mut case = Case::drawn(dice)?;
        let delay = case.limits.delay.unwrap_or(0);
        // A trace without slots has no such window.
        let first = case.f.get(1 + delay).copied().unwrap_or(0);
        case.limits.delay = Some(delay);
        case.limits.buffer = Some(first + dice.pick([0, 0, 1, 7]));
        let (before, after) = case.before_and_after();
        lossy.add(loses(&before));
        same("totals", before, after)
    });
    lossy.check("traces with losses");
}

/// f(k-1) + f(1) is at least f(k).
#[test]
fn with_f_1_more_the_count_before_departures_admits_no_less() {
    let parted = Tally::default();
    for_each_drawn(STREAMS, |dice| {
        let mut case = Case::drawn(dice)?;
        let after = case.by(Count::AfterDepartures);
        let at_once = case.f.get(1).copied().unwrap_or(0);
        case.limits.buffer = case.limits.buffer.map(|q| q + at_once);
        let before = case.by(Count::BeforeDepartures);
        parted.add(before.admitted != after.admitted);
        let less = |t: &usize| before.admitted[*t] < after.admitted[*t];
        same("less", (0..=case.arrivals.len()).find(less), None)
    });
    parted.check("traces on which it admits more");
}

/// A packet has to be counted in before it can leave.
#[test]
fn with_q_0_nothing_is_admitted() {
    let admits = Tally::default();
    for_each_drawn(STREAMS, |dice| {
        let mut case = Case::drawn(dice)?;
        case.limits.buffer = Some(0);
        let (before, after) = case.before_and_after();
        admits.add(after.admitted.last() != Some(&0));
        same("admitted", before.admitted.last(), Some(&0))
    });
    admits.check("traces on which the count after departures admits some");
}

/// Both readers' peaks, of a fresh regulator over the whole trace.
#[test]
fn both_peaks_are_at_most_q() {
    let full = Tally::default();
    for_each_drawn(STREAMS, |dice| {
        let stream = stream(dice)?;
        let rows = said(trace::rows(&stream))?;
        let peaks = Peaks::over(&fill::records(&rows));
        if stream.buffer != u64::from(NO_BUFFER) {
            full.add(peaks.bench == stream.buffer && peaks.bench > 0);
            same("form", peaks.form.min(stream.buffer), peaks.form)?;
            same("bench", peaks.bench.min(stream.buffer), peaks.bench)?;
        }
        Ok(())
    });
    full.check("full buffers");
}

/// A path's buffer by the words of the request: what had left the last stage by the slot before, plus
/// q, beside what the delay limit alone would let in. The first stage's departures would not do.
#[test]
fn a_path_s_buffer_counts_what_left_its_last_stage() {
    let (buffered, first_differs) = (Tally::default(), Tally::default());
    for_each_drawn(STREAMS, |dice| {
        let drawn = paths::any(dice);
        let Case {
            f,
            limits,
            arrivals,
        } = Case::of_path(&drawn)?;
        let lists = said(drawn.lists())?;
        let slots = arrivals.len();
        let stage = |stage: usize| &lists.departed[stage * slots..(stage + 1) * slots];
        let by_delay = Limits {
            buffer: None,
            ..limits
        };
        let worked = |departed: &[u64]| {
            let mut admitted = vec![0];
            let mut left = 0;
            for (slot, &count) in arrivals.iter().enumerate() {
                let let_in = next_admitted(&f, by_delay, &admitted, count);
                admitted.push(limits.buffer.map_or(let_in, |q| let_in.min(left + q)));
                left += departed[slot];
            }
            let in_slot = admitted.windows(2).map(|pair| pair[1] - pair[0]);
            in_slot.collect::<Vec<u64>>()
        };
        let last = worked(stage(drawn.tables.len() - 1));
        buffered.add(last != worked(&vec![u64::from(NO_BUFFER); slots]));
        first_differs.add(last != worked(stage(0)));
        same("admitted", &last, &lists.admitted)
    });
    buffered.check("traces on which the buffer limit bites");
    first_differs.check("traces on which the first stage's departures would let in more");
}

/// Bella's order: 36 by the count before departures is 30 by the count after them, slot by slot.
#[test]
fn bella_s_36_was_30() {
    let stream = stream::read(&samples::bytes("bella", "stream")).expect("an accepted sample");
    assert_eq!(stream.buffer, 36);
    let mut case = Case::of_stream(&stream).expect("an accepted sample");
    let before = case.by(Count::BeforeDepartures);
    case.limits.buffer = Some(30);
    let (with_30, after) = case.before_and_after();
    assert_eq!(before, after);
    assert_ne!(before, with_30);
}
