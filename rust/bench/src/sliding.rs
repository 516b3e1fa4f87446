//! The fastest whole-trace run that we know how to write in Rust. No total of a trace, with f at
//! any window that a slot looks at, passes 2^32, so all sums are of 32 bits; the departed totals
//! stand newest first in one row that slides down a place in each slot, so nothing is moved; both
//! least sums come from one plain pass, which becomes vector code; and the newest total does not go
//! through memory, where a vector that covers it would have to wait.

use bezhantiru::Lists;

use crate::quick::{MOST_TRACE_SLOTS, MOST_WINDOWS, Refused, check_run};

/// f at windows 0 to L+d.
type Windows = [u32; 2 * MOST_WINDOWS + 1];

pub fn run(
    table: &[u32],
    delay: u32,
    buffer: u32,
    arrivals: &[u32],
    lists: Lists<'_>,
) -> Result<(), Refused> {
    let limits = check_run(table, delay, buffer, arrivals, &lists)?;
    let last = table.len() - 1;
    let f = close(table, last + limits.delay.unwrap_or(0));
    // A bound that is none is above every total.
    let buffer = limits.buffer.map(|buffer| buffer as u32);
    let within = |newest: u32| buffer.map_or(u32::MAX, |buffer| newest + buffer);
    let near = &f[2..=last];
    match limits.delay {
        Some(delay) => {
            let far = &f[2 + delay..=last + delay];
            slots(last, arrivals, lists, |newest, older| {
                let (now, late) = least_sums(older, near, far);
                let now = now.min(newest + f[1]);
                (now, within(newest).min(late).min(newest + f[1 + delay]))
            });
        }
        None => slots(last, arrivals, lists, |newest, older| {
            let now = least_sum(older, near).min(newest + f[1]);
            (now, within(newest))
        }),
    }
    Ok(())
}

/// Every slot. From the last departed total and the older ones, newest first, `bounds` tells the
/// most that may have departed by the slot's end, and the most that may have been admitted.
#[inline(always)]
fn slots(
    last: usize,
    arrivals: &[u32],
    lists: Lists<'_>,
    bounds: impl Fn(u32, &[u32]) -> (u32, u32),
) {
    let mut row = [0; MOST_TRACE_SLOTS + MOST_WINDOWS];
    let (mut before, mut newest) = (0, 0);
    let slots = arrivals.len();
    let [admitted, dropped, departed] =
        [lists.admitted, lists.dropped, lists.departed].map(|list| &mut list[..slots]);
    for slot in 0..slots {
        let place = MOST_TRACE_SLOTS - slot;
        let (now, most) = bounds(newest, &row[place + 1..place + last]);
        let all = before + arrivals[slot];
        let total = all.min(most);
        let gone = total.min(now);
        admitted[slot] = total - before;
        dropped[slot] = all - total;
        departed[slot] = gone - newest;
        row[place - 1] = gone;
        (before, newest) = (total, gone);
    }
}

/// The least sum of two numbers in the same place.
#[inline(always)]
fn least_sum(totals: &[u32], windows: &[u32]) -> u32 {
    let mut least = u32::MAX;
    for place in 0..totals.len().min(windows.len()) {
        least = least.min(totals[place] + windows[place]);
    }
    least
}

/// The same for two lists of windows at once.
#[inline(always)]
fn least_sums(totals: &[u32], windows: &[u32], late: &[u32]) -> (u32, u32) {
    let (mut least, mut least_late) = (u32::MAX, u32::MAX);
    let places = totals.len();
    let (windows, late) = (&windows[..places], &late[..places]);
    for place in 0..places {
        least = least.min(totals[place] + windows[place]);
        least_late = least_late.min(totals[place] + late[place]);
    }
    (least, least_late)
}

/// f(n) is the least of table(k) + f(n-k) over k from 1 to L and to n.
fn close(table: &[u32], last_window: usize) -> Windows {
    let last = table.len() - 1;
    let mut backwards = [0; MOST_WINDOWS];
    for (entry, &given) in backwards.iter_mut().zip(table[1..].iter().rev()) {
        *entry = given;
    }
    let mut f = [0; 2 * MOST_WINDOWS + 1];
    for window in 1..=last_window {
        let reach = last.min(window);
        f[window] = least_sum(&f[window - reach..window], &backwards[last - reach..last]);
    }
    f
}
