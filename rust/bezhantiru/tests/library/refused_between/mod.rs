//! Lists of slot calls, some of them refused.

use tests_program::dice::Dice;

/// A trace's arrivals with calls in between that are refused.
pub fn calls(arrivals: &[u64], dice: &mut Dice) -> Vec<u64> {
    let mut calls = Vec::new();
    for &count in arrivals {
        for _ in 0..dice.pick([0, 0, 0, 1, 2]) {
            calls.push(dice.pick([1_000_001, 1 << 32, (1 << 32) + 5, u64::MAX]));
        }
        calls.push(count);
    }
    calls
}
