//! A least-loss regulator in place: the last L departed totals, newest first, f at windows 0 to
//! L+d, and two passes for the least of sums in each slot. Records, peaks, lists and limits are given
//! as by and to the library.

use bezhantiru::{Bound, Lists, NO_BUFFER, NO_DELAY, Record};

/// The last window of the longest table, and the longest delay limit.
pub const MOST_WINDOWS: usize = 64;
pub const MOST_TRACE_SLOTS: usize = 4_096;
const MOST_PACKETS: u32 = 1_000_000;
const MOST_LIVE_SLOTS: u32 = 1_000_000;
const LAST_QUESTION: u32 = 4_160;

/// The number of a refusal.
pub type Refused = u32;

/// Limits that are none are no numbers.
#[derive(Clone, Copy, Debug)]
pub struct Limits {
    pub delay: Option<usize>,
    pub buffer: Option<u64>,
}

#[derive(Clone, Debug)]
pub struct Regulator {
    last_window: usize,
    limits: Limits,
    f: [u64; 2 * MOST_WINDOWS + 1],
    past: [u64; MOST_WINDOWS],
    admitted: u64,
    form_peak: u64,
    bench_peak: u64,
    slots: u32,
}

impl Regulator {
    pub fn set_up(table: &[u32], delay: u32, buffer: u32) -> Result<Regulator, Refused> {
        let limits = check_set_up(table, delay, buffer)?;
        Ok(Regulator::fresh(table, limits))
    }

    /// One for a file's table and limits, which may both be none.
    pub fn of_file(table: &[u32], delay: u32, buffer: u32) -> Result<Regulator, Refused> {
        check_table(table)?;
        Ok(Regulator::fresh(table, check_limits(delay, buffer)?))
    }

    fn fresh(table: &[u32], limits: Limits) -> Regulator {
        let last_window = table.len() - 1;
        let mut f = [0; 2 * MOST_WINDOWS + 1];
        close(table, &mut f[..=last_window + limits.delay.unwrap_or(0)]);
        Regulator {
            last_window,
            limits,
            f,
            past: [0; MOST_WINDOWS],
            admitted: 0,
            form_peak: 0,
            bench_peak: 0,
            slots: 0,
        }
    }

    pub fn slot(&mut self, arrivals: u64) -> Result<Record, Refused> {
        if arrivals > u64::from(MOST_PACKETS) {
            return Err(8);
        }
        if self.slots >= MOST_LIVE_SLOTS {
            return Err(9);
        }
        let record = self.advance(arrivals);
        self.form_peak = self.form_peak.max(form_fill(&record));
        self.bench_peak = self.bench_peak.max(bench_fill(&record));
        Ok(record)
    }

    pub fn form_peak(&self) -> u64 {
        self.form_peak
    }

    pub fn bench_peak(&self) -> u64 {
        self.bench_peak
    }

    /// All of a slot but its peaks, which a run does not answer.
    #[inline]
    fn advance(&mut self, arrivals: u64) -> Record {
        let last = self.last_window;
        let past = &self.past[..last];
        let departing = least_sum(past, &self.f[1..=last]);
        let mut admitted = self.admitted + arrivals;
        if let Some(delay) = self.limits.delay {
            admitted = admitted.min(least_sum(past, &self.f[1 + delay..=last + delay]));
        }
        if let Some(buffer) = self.limits.buffer {
            admitted = admitted.min(self.past[0] + buffer);
        }
        let departed = admitted.min(departing);
        let record = Record {
            held_before: self.admitted - self.past[0],
            admitted: admitted - self.admitted,
            dropped: self.admitted + arrivals - admitted,
            departed: departed - self.past[0],
        };
        self.past.copy_within(..last - 1, 1);
        self.past[0] = departed;
        self.admitted = admitted;
        self.slots += 1;
        record
    }
}

/// The fill at the slot's end.
pub fn form_fill(record: &Record) -> u64 {
    bench_fill(record) - record.departed
}

/// The fill before the slot's departures.
fn bench_fill(record: &Record) -> u64 {
    record.held_before + record.admitted
}

/// The least sum of two numbers in the same place, four places a turn. Two least sums side by side,
/// because each has to wait for the one before it.
fn least_sum(left: &[u64], right: &[u64]) -> u64 {
    let (left_fours, left_rest) = left.as_chunks::<4>();
    let (right_fours, right_rest) = right.as_chunks::<4>();
    let mut least = [u64::MAX; 2];
    for (left, right) in left_fours.iter().zip(right_fours) {
        for place in 0..4 {
            least[place % 2] = least[place % 2].min(left[place] + right[place]);
        }
    }
    let rest = left_rest
        .iter()
        .zip(right_rest)
        .map(|(left, right)| left + right);
    rest.chain(least).fold(u64::MAX, u64::min)
}

/// Fills f from window 0 on: f(n) is the least of table(k) + f(n-k) over k from 1 to L and to n.
fn close(table: &[u32], f: &mut [u64]) {
    let last = table.len() - 1;
    let mut backwards = [0; MOST_WINDOWS];
    for (entry, &given) in backwards.iter_mut().zip(table[1..].iter().rev()) {
        *entry = u64::from(given);
    }
    f[0] = 0;
    for window in 1..f.len() {
        let reach = last.min(window);
        f[window] = least_sum(&f[window - reach..window], &backwards[last - reach..last]);
    }
}

pub fn run(
    table: &[u32],
    delay: u32,
    buffer: u32,
    arrivals: &[u32],
    lists: Lists<'_>,
) -> Result<(), Refused> {
    let limits = check_run(table, delay, buffer, arrivals, &lists)?;
    let mut regulator = Regulator::fresh(table, limits);
    let Lists {
        admitted,
        dropped,
        departed,
    } = lists;
    for (slot, &count) in arrivals.iter().enumerate() {
        let record = regulator.advance(u64::from(count));
        admitted[slot] = record.admitted as u32;
        dropped[slot] = record.dropped as u32;
        departed[slot] = record.departed as u32;
    }
    Ok(())
}

/// f with its first piece.
pub fn envelope(table: &[u32], window: u32) -> Result<Bound, Refused> {
    check_table(table)?;
    if window > LAST_QUESTION {
        return Err(5);
    }
    let mut f = [0; LAST_QUESTION as usize + 1];
    let window = window as usize;
    close(table, &mut f[..=window]);
    let reach = window.min(table.len() - 1);
    let makes_up = |k: &usize| u64::from(table[*k]) + f[window - k] == f[window];
    Ok(Bound {
        packets: f[window],
        piece: (1..=reach).find(makes_up).unwrap_or(0) as u32,
    })
}

fn check_table(table: &[u32]) -> Result<(), Refused> {
    if !(2..=MOST_WINDOWS + 1).contains(&table.len()) {
        return Err(1);
    }
    if table[0] != 0 {
        return Err(2);
    }
    for pair in table.windows(2) {
        if pair[1] > MOST_PACKETS {
            return Err(3);
        }
        if pair[1] < pair[0] {
            return Err(4);
        }
    }
    Ok(())
}

fn check_limits(delay: u32, buffer: u32) -> Result<Limits, Refused> {
    if delay > MOST_WINDOWS as u32 && delay != NO_DELAY {
        return Err(6);
    }
    if buffer > MOST_PACKETS && buffer != NO_BUFFER {
        return Err(7);
    }
    Ok(Limits {
        delay: (delay != NO_DELAY).then_some(delay as usize),
        buffer: (buffer != NO_BUFFER).then_some(u64::from(buffer)),
    })
}

fn check_set_up(table: &[u32], delay: u32, buffer: u32) -> Result<Limits, Refused> {
    check_table(table)?;
    let limits = check_limits(delay, buffer)?;
    if limits.delay.is_none() && limits.buffer.is_none() {
        return Err(23);
    }
    Ok(limits)
}

pub fn check_run(
    table: &[u32],
    delay: u32,
    buffer: u32,
    arrivals: &[u32],
    lists: &Lists<'_>,
) -> Result<Limits, Refused> {
    let limits = check_set_up(table, delay, buffer)?;
    let slots = arrivals.len();
    if slots > MOST_TRACE_SLOTS {
        return Err(10);
    }
    let Lists {
        admitted,
        dropped,
        departed,
    } = lists;
    if admitted.len() != slots || dropped.len() != slots || departed.len() != slots {
        return Err(11);
    }
    if too_many(arrivals) {
        return Err(8);
    }
    Ok(limits)
}

/// Whether a count is above the most. All counts are looked at, several at once: stopping at the first
/// costs more where there is none.
pub fn too_many(counts: &[u32]) -> bool {
    let found = |before, &count: &u32| before | (count > MOST_PACKETS);
    counts.iter().fold(false, found)
}
