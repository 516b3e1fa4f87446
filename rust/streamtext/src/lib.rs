//! Stream files as readable text, and back. It promises that a file of the right length comes
//! back from its text byte for byte, also one that the regulator refuses.
//!
//! ```text
//! # two bursts under a two-window envelope
//! table 0 2 3
//! delay 1          # or: delay none
//! buffer 9         # or: buffer none
//! slots 4
//! 1 5              # slot 1 has 5 arrivals
//! 3 4
//! ```

mod parse;
mod show;

pub use parse::{TextError, parse};
pub use show::show;
