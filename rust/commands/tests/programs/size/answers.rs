//! Answers beside the reference's.

use reference::fill::{Peaks, records};
use reference::layout::{NO_BUFFER, NO_DELAY};
use reference::permitted::premise;
use reference::regulator::Limits;
use reference::size::{Size, buffer_by_halving, delay_by_halving};
use reference::stream::{self, Stream};
use reference::{refusal, trace};
use tests_program::cases::{for_each_drawn, for_each_numbered, same};
use tests_program::samples::{SAMPLES, bytes};
use tests_program::{damage, draw};

use super::program::{By, Found, Line, Short, Sizes, Sought};

const FILES: usize = 20_000;
const LIMITED: usize = 10_000;

/// What the reference says of a file, or the number.
fn wanted(file: &[u8], most_lost: u64) -> Result<Sizes, refusal::Refusal> {
    let stream = stream::read(file)?;
    let (table, delay, buffer) = (&stream.table, stream.delay, stream.buffer);
    refusal::set_up(table, delay, buffer)?;
    let size = buffer_by_halving(table, delay, &stream.arrivals, most_lost)?;
    let of_buffer = found(size, |q| last(&stream, (delay, q), q))?;
    let size = delay_by_halving(table, buffer, &stream.arrivals, most_lost)?;
    let of_delay = found(size, |d| last(&stream, (d, buffer), d))?;
    let given_delay = (delay != u64::from(NO_DELAY)).then_some(delay as u32);
    Ok(Sizes {
        buffer: Line {
            sought: Sought::Buffer,
            given: given_delay,
            found: of_buffer,
        },
        delay: Line {
            sought: Sought::Delay,
            given: (buffer != u64::from(NO_BUFFER)).then_some(buffer as u32),
            found: of_delay,
        },
        every_slot: match given_delay {
            None => None,
            given => Some(Line {
                sought: Sought::EverySlot,
                given,
                found: every_slot(&stream)?,
            }),
        },
    })
}

/// The size, and what is lost with the limit below it or with the greatest.
fn found(
    size: Size,
    short: impl Fn(u64) -> Result<Short, refusal::Refusal>,
) -> Result<Found, refusal::Refusal> {
    let Size { found, limit, lost } = size;
    Ok(match (found, limit) {
        (true, 0) => Found::Zero { lost },
        (true, limit) => Found::Smallest {
            limit: limit as u32,
            lost,
            below: short(limit - 1)?,
        },
        (false, greatest) => Found::NoneDoes {
            greatest: short(greatest)?,
        },
    })
}

/// What is dropped in each slot with two limits.
fn dropped(stream: &Stream, (delay, buffer): (u64, u64)) -> Result<Vec<u64>, refusal::Refusal> {
    let (table, lengths) = (&stream.table, [stream.arrivals.len(); 3]);
    Ok(trace::run(table, delay, buffer, &stream.arrivals, lengths)?.dropped)
}

/// The delay limit where the premise of the lowest loss curve does not hold for it, and ours loses more by
/// the slot than with none. With both limits none nothing is lost.
fn unseen(
    stream: &Stream,
    (delay, buffer): (u64, u64),
    (slot, lost): (usize, u64),
) -> Result<Option<u32>, refusal::Refusal> {
    let holds = premise(Limits::from_numbers(delay, buffer)?, &stream.arrivals);
    let alone = match buffer == u64::from(NO_BUFFER) {
        true => 0,
        false => dropped(stream, (NO_DELAY.into(), buffer))?[..slot]
            .iter()
            .sum(),
    };
    Ok((!holds && alone < lost).then_some(delay as u32))
}

/// What is lost by the last slot.
fn last(stream: &Stream, limits: (u64, u64), limit: u64) -> Result<Short, refusal::Refusal> {
    let lost = dropped(stream, limits)?.iter().sum();
    Ok(Short {
        limit: limit as u32,
        lost,
        by: None,
        unseen: unseen(stream, limits, (stream.arrivals.len(), lost))?,
    })
}

/// The bench's peak with no buffer limit, and the first slot by which one less has lost more.
fn every_slot(stream: &Stream) -> Result<Found, refusal::Refusal> {
    let mut alone = stream.clone();
    alone.buffer = NO_BUFFER.into();
    let limits = |buffer| (stream.delay, buffer);
    let least = dropped(stream, limits(alone.buffer))?;
    let peak = Peaks::over(&records(&trace::rows(&alone)?)).bench;
    let size = Size {
        found: peak <= 1_000_000,
        limit: peak.min(1_000_000),
        lost: least.iter().sum(),
    };
    found(size, |buffer| {
        let dropped = dropped(stream, limits(buffer))?;
        let sums = |list: &[u64], slot| list[..slot].iter().sum::<u64>();
        let slots = 1..=stream.arrivals.len();
        let more = |slot: &usize| sums(&dropped, *slot) > sums(&least, *slot);
        let slot = slots
            .into_iter()
            .find(more)
            .expect("a slot that loses more");
        let lost = sums(&dropped, slot);
        Ok(Short {
            limit: buffer as u32,
            lost,
            by: Some(By {
                slot,
                least: sums(&least, slot),
            }),
            unseen: unseen(stream, limits(buffer), (slot, lost))?,
        })
    })
}

fn check(file: &[u8], most_lost: u32) -> Result<(), String> {
    let found = Sizes::of_file(file, most_lost).map_err(|refusal| refusal.number());
    let wanted = wanted(file, most_lost.into()).map_err(|refusal| refusal.number().into());
    same(&format!("{file:02x?}, {most_lost} lost"), found, wanted)
}

#[test]
fn samples() {
    for name in SAMPLES {
        for most_lost in match name {
            "long" => &[524][..],
            _ => &[0, 1, 8, 11, 12, 13, 18, 177, 178, u32::MAX],
        } {
            let done = check(&bytes(name, "stream"), *most_lost);
            done.unwrap_or_else(|problem| panic!("{name}: {problem}"));
        }
    }
}

#[test]
fn drawn_files() {
    for_each_numbered(FILES, |number, dice| {
        let file = damage::file(number, dice);
        let some = dice.below(100);
        check(&file, dice.pick([some, some, 0, 1, 1_000_000, u32::MAX]))
    });
}

/// Both limits, and as many slots without arrivals as the delay limit asks for, or one fewer.
#[test]
fn drawn_ends() {
    for_each_drawn(LIMITED, |dice| {
        let mut drawn = draw::stream(dice, 1, 4, 0, 10);
        drawn.header.delay = dice.below(4);
        drawn.header.slots += (drawn.header.delay + 1).saturating_sub(dice.below(3));
        let arrived: u32 = drawn
            .arrivals()
            .iter()
            .fold(0, |sum, n| sum.saturating_add(*n));
        check(&drawn.to_bytes(), dice.below(arrived.saturating_add(2)))
    });
}
