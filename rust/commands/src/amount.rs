//! Amounts of links, as a reader with a pencil writes them.

/// What arrived after one slot through another: A at the last slot, and at the one that the link begins
/// after.
pub fn arrived([first, last]: [u64; 2], [before, through]: [u64; 2], amount: u64) -> String {
    format!("A({last}) - A({first}) = {through} - {before} = {amount}")
}

/// f at the window before the link's last slot, and q.
pub fn buffered(window: u64, [packets, buffer]: [u64; 2], amount: u64) -> String {
    format!("f({window}) + q = {packets} + {buffer} = {amount}")
}
