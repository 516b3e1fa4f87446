//! Tables that may have to be refused.

use tests_program::dice::Dice;

/// A table that is refused or just passes: near the last window, with entries that fall or are too
/// large.
pub fn any_table(dice: &mut Dice) -> Vec<u32> {
    let length = dice.pick([0, 1, 2, 3, 4, 5, 64, 65, 66, 70]);
    let mut table: Vec<u32> = (0..length).map(|window| window as u32).collect();
    for _ in 0..dice.pick([0, 0, 1, 2]).min(length) {
        let window = dice.place(length);
        table[window] = dice.pick([0, 1, 2, 70, 1_000_000, 1_000_001, u32::MAX]);
    }
    table
}
