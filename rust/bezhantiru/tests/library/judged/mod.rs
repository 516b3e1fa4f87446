//! Numbers at every limit and one beyond, with the refusal's number that each gets, 0 where accepted.

use bezhantiru::{NO_BUFFER, NO_DELAY};

pub const DELAYS: [(u32, u32); 9] = [
    (0, 0),
    (1, 0),
    (64, 0),
    (65, 6),
    (128, 6),
    (254, 6),
    (NO_DELAY, 0),
    (256, 6),
    (u32::MAX, 6),
];
pub const BUFFERS: [(u32, u32); 7] = [
    (0, 0),
    (1, 0),
    (1_000_000, 0),
    (1_000_001, 7),
    (1 << 31, 7),
    (NO_BUFFER - 1, 7),
    (NO_BUFFER, 0),
];
/// Lengths of a trace.
pub const LENGTHS: [(usize, u32); 6] = [
    (0, 0),
    (1, 0),
    (4_095, 0),
    (4_096, 0),
    (4_097, 10),
    (9_999, 10),
];
/// Arrivals of a slot.
pub const COUNTS: [(u32, u32); 4] = [(1_000_000, 0), (1_000_001, 8), (1 << 31, 8), (u32::MAX, 8)];

/// 23 for both limits none.
pub fn both(delay: u32, buffer: u32) -> u32 {
    if delay == NO_DELAY && buffer == NO_BUFFER {
        23
    } else {
        0
    }
}

/// The first number that is not 0.
pub fn first(numbers: impl IntoIterator<Item = u32>) -> u32 {
    let mut numbers = numbers.into_iter();
    numbers.find(|&number| number != 0).unwrap_or(0)
}
