//! Every tiny trace, and small tables, for facts that are checked on all of them.

/// Closed tables and others, with entries of 0 and with equal ones.
pub const TABLES: [&[u64]; 8] = [
    &[0, 0],
    &[0, 1],
    &[0, 2, 3],
    &[0, 2, 5],
    &[0, 0, 5],
    &[0, 0, 1, 3],
    &[0, 3, 3, 3],
    &[0, 1, 1, 4],
];

/// Every trace of the given length with 0 to 3 arrivals in each slot.
pub fn traces(slots: u32) -> impl Iterator<Item = Vec<u64>> {
    let digit = |code: u64, slot: u32| code / 4_u64.pow(slot) % 4;
    (0..4_u64.pow(slots)).map(move |code| (0..slots).map(|slot| digit(code, slot)).collect())
}
