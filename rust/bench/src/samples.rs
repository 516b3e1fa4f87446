//! The tables and traces that are timed: always the same ones.

use bezhantiru::boundary::Square;

use crate::quick::{self, Refused};

/// Entries whose steps fall from 24 packets to 3, as a burst's envelope does.
pub fn table(last_window: usize) -> Vec<u32> {
    let step = |window: usize| 3 + (21 * (64 - window) / 63) as u32;
    let mut table = vec![0];
    for window in 1..=last_window {
        table.push(table[window - 1] + step(window));
    }
    table
}

/// A table for each of so many stages. At every window one of them has the given entry and the others
/// have 3 packets more, the smallest step, so that a path of them lets through what the given table
/// does.
pub fn stages(table: &[u32], stages: usize) -> Vec<Vec<u32>> {
    let entry = |stage: usize, window: usize| {
        let more = window > 0 && window % stages != stage;
        table[window] + if more { 3 } else { 0 }
    };
    let windows = || 0..table.len();
    (0..stages)
        .map(|stage| windows().map(|window| entry(stage, window)).collect())
        .collect()
}

/// The square made from a table: its envelope's windows, whenever they begin.
pub fn square(table: &[u32]) -> Result<Square, Refused> {
    let mut square = [[0; 33]; 33];
    for (s, row) in square.iter_mut().enumerate() {
        for (window, entry) in row[s..].iter_mut().enumerate() {
            *entry = quick::envelope(table, window as u32)?.packets as u32;
        }
    }
    Ok(square)
}

/// Arrivals of as many slots, in half of the slots none; on the whole a quarter more than the
/// table lets depart.
pub fn arrivals(table: &[u32], slots: usize) -> Vec<u32> {
    let last_window = table.len() as u32 - 1;
    let most = 5 * table[table.len() - 1] / last_window;
    let mut state = 1_u64;
    let mut draw = |limit: u32| {
        // The generator of Knuth's MMIX; its upper half is the better one.
        state = state
            .wrapping_mul(6_364_136_223_846_793_005)
            .wrapping_add(1_442_695_040_888_963_407);
        (state >> 33) as u32 % limit
    };
    let mut one = || if draw(2) == 0 { 0 } else { draw(most + 1) };
    (0..slots).map(|_| one()).collect()
}

/// The stream file of a table, its limits and a trace; it names every slot.
pub fn stream(table: &[u32], (delay, buffer): (u32, u32), arrivals: &[u32]) -> Vec<u8> {
    let slots = arrivals.len() as u32;
    let mut numbers = vec![table.len() as u32 - 1, slots, slots, delay, buffer];
    numbers.extend(table);
    numbers.extend(1..=slots);
    numbers.extend(arrivals);
    numbers.into_iter().flat_map(u32::to_le_bytes).collect()
}
