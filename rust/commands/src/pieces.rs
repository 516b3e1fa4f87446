//! How f at a window is made up: the first piece of the window, then that of what remains, and so
//! on, each as the library answers it. Document 02, 2.4.

use std::fmt;

use bezhantiru::{Refusal, envelope};

/// f at a window, and windows of table entries that make up both.
#[derive(Clone, Debug, PartialEq, Eq)]
pub struct Pieces {
    pub window: u32,
    pub packets: u64,
    /// None for window 0.
    pub pieces: Vec<u32>,
}

impl Pieces {
    /// Those of a table, or the first refusal of table, 5.
    pub fn of(table: &[u32], window: u32) -> Result<Pieces, Refusal> {
        let packets = envelope(table, window)?.packets;
        let mut pieces = Vec::new();
        let mut left = window;
        // A first piece is neither 0 nor above its window, so that what is left falls to 0.
        while left > 0 {
            let piece = envelope(table, left)?.piece;
            pieces.push(piece);
            left -= piece;
        }
        Ok(Pieces {
            window,
            packets,
            pieces,
        })
    }
}

impl fmt::Display for Pieces {
    fn fmt(&self, out: &mut fmt::Formatter<'_>) -> fmt::Result {
        write!(out, "f({}) = {}", self.window, self.packets)?;
        for (place, piece) in self.pieces.iter().enumerate() {
            let sign = if place == 0 { '=' } else { '+' };
            write!(out, " {sign} table({piece})")?;
        }
        Ok(())
    }
}
