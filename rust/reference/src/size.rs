//! The smallest limits: how large a buffer limit or a delay limit has to be so that no more than so many
//! packets of a trace are lost by its last slot.

use crate::closure;
use crate::refusal::{self, MOST_DELAY, MOST_PACKETS, Refusal};
use crate::regulator::{Limits, Totals};

/// A limit, and what is lost with it.
#[derive(Clone, Copy, Debug, PartialEq, Eq)]
pub struct Size {
    /// Whether it loses no more than was asked for. Where no limit does, this is the greatest.
    pub found: bool,
    pub limit: u64,
    pub lost: u64,
}

/// The smallest buffer limit of 0 to 1,000,000, or the first refusal of table, 6, 10, 8. All are tried,
/// from 0 up, until one does; those from all arrivals on lose what the greatest does, since no more
/// packets are ever there.
pub fn buffer_by_search(
    table: &[u64],
    delay: u64,
    arrivals: &[u64],
    most_lost: u64,
) -> Result<Size, Refusal> {
    let lost = lost_with_buffer(table, delay, arrivals)?;
    let differ = arrivals.iter().sum::<u64>().min(MOST_PACKETS);
    let tried = (0..differ).chain([differ, MOST_PACKETS]);
    Ok(first_of(tried, MOST_PACKETS, most_lost, lost))
}

/// The same by halving: what is lost never grows with a limit. Quick enough for any trace; the tests set
/// it beside the search.
pub fn buffer_by_halving(
    table: &[u64],
    delay: u64,
    arrivals: &[u64],
    most_lost: u64,
) -> Result<Size, Refusal> {
    let lost = lost_with_buffer(table, delay, arrivals)?;
    Ok(halved(MOST_PACKETS, most_lost, lost))
}

/// The smallest delay limit of 0 to 64, or the first refusal of table, 7, 10, 8. All are tried, from 0 up.
pub fn delay_by_search(
    table: &[u64],
    buffer: u64,
    arrivals: &[u64],
    most_lost: u64,
) -> Result<Size, Refusal> {
    let lost = lost_with_delay(table, buffer, arrivals)?;
    Ok(first_of(0..=MOST_DELAY, MOST_DELAY, most_lost, lost))
}

/// The same by halving.
pub fn delay_by_halving(
    table: &[u64],
    buffer: u64,
    arrivals: &[u64],
    most_lost: u64,
) -> Result<Size, Refusal> {
    let lost = lost_with_delay(table, buffer, arrivals)?;
    Ok(halved(MOST_DELAY, most_lost, lost))
}

/// What is lost by the last slot with each buffer limit.
fn lost_with_buffer(
    table: &[u64],
    delay: u64,
    arrivals: &[u64],
) -> Result<impl Fn(u64) -> u64, Refusal> {
    refusal::smallest_buffer(table, delay, arrivals)?;
    let limits = Limits::from_numbers(delay, 0)?;
    Ok(lost_with(table, arrivals, move |buffer| Limits {
        buffer: Some(buffer),
        ..limits
    }))
}

/// What is lost by the last slot with each delay limit.
fn lost_with_delay(
    table: &[u64],
    buffer: u64,
    arrivals: &[u64],
) -> Result<impl Fn(u64) -> u64, Refusal> {
    refusal::smallest_delay(table, buffer, arrivals)?;
    let limits = Limits::from_numbers(0, buffer)?;
    Ok(lost_with(table, arrivals, move |delay| Limits {
        delay: Some(delay as usize),
        ..limits
    }))
}

/// A(T) - X(T) with the limits that a number stands for.
fn lost_with(
    table: &[u64],
    arrivals: &[u64],
    limits: impl Fn(u64) -> Limits,
) -> impl Fn(u64) -> u64 {
    let last = arrivals.len();
    let f = closure::by_recursion(table, last + MOST_DELAY as usize);
    let arrivals = arrivals.to_vec();
    move |limit| {
        let totals = Totals::over(&f, limits(limit), &arrivals);
        totals.arrived[last] - totals.admitted[last]
    }
}

fn first_of(
    mut tried: impl Iterator<Item = u64>,
    greatest: u64,
    most_lost: u64,
    lost: impl Fn(u64) -> u64,
) -> Size {
    let does = tried.find(|&limit| lost(limit) <= most_lost);
    size(does, greatest, lost)
}

fn halved(greatest: u64, most_lost: u64, lost: impl Fn(u64) -> u64) -> Size {
    // No limit below the first does, and all from the second on do.
    let (mut below, mut from) = (0, greatest + 1);
    while below < from {
        let middle = (below + from) / 2;
        if lost(middle) <= most_lost {
            from = middle;
        } else {
            below = middle + 1;
        }
    }
    size((from <= greatest).then_some(from), greatest, lost)
}

fn size(does: Option<u64>, greatest: u64, lost: impl Fn(u64) -> u64) -> Size {
    let limit = does.unwrap_or(greatest);
    Size {
        found: does.is_some(),
        limit,
        lost: lost(limit),
    }
}
