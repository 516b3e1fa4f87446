//! Numbers that look drawn at random and are the same for the same seed.

use std::env;

pub struct Dice {
    state: u64,
}

impl Dice {
    /// A source of its own for each number under one seed, so that a single file can be drawn
    /// again without those before it.
    pub fn new(seed: u64, number: u64) -> Dice {
        let mut dice = Dice { state: seed };
        dice.state = dice.roll() ^ number;
        dice
    }

    /// The step of splitmix64.
    fn roll(&mut self) -> u64 {
        self.state = self.state.wrapping_add(0x9E37_79B9_7F4A_7C15);
        let mixed = (self.state ^ (self.state >> 30)).wrapping_mul(0xBF58_476D_1CE4_E5B9);
        let mixed = (mixed ^ (mixed >> 27)).wrapping_mul(0x94D0_49BB_1331_11EB);
        mixed ^ (mixed >> 31)
    }

    /// From 0 to the limit less 1; a limit of 0 gives 0.
    pub fn below(&mut self, limit: u32) -> u32 {
        (self.roll() % u64::from(limit.max(1))) as u32
    }

    /// From `first` to `last`, both included.
    pub fn between(&mut self, first: u32, last: u32) -> u32 {
        first + self.below(last - first + 1)
    }

    /// A place in a list of the given length.
    pub fn place(&mut self, length: usize) -> usize {
        (self.roll() % length.max(1) as u64) as usize
    }

    pub fn pick<T: Copy, const N: usize>(&mut self, choices: [T; N]) -> T {
        choices[self.place(N)]
    }

    pub fn byte(&mut self) -> u8 {
        self.roll().to_le_bytes()[0]
    }
}

/// The seed in `SEED`, or a fixed one.
pub fn seed() -> Result<u64, String> {
    match env::var("SEED") {
        Ok(word) => word
            .parse()
            .map_err(|_| format!("SEED is {word}, which is no number")),
        Err(_) => Ok(1),
    }
}
