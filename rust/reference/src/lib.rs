//! The least-loss regulator by the letter of document 01, and what document 02 asks beside it: slow
//! and plain on purpose, so that each function can be read beside the document's sentence. It
//! promises the numbers that every other implementation must give.
//!
//! Slots and windows are `usize`, packets are `u64`, so that the two are never added. Tables,
//! limits and arrivals come in as raw `u64` numbers wherever they may still be refused.

pub mod bucket;
pub mod certificate;
pub mod chain;
pub mod closure;
pub mod fill;
pub mod judge;
pub mod layout;
pub mod path;
pub mod pencil;
pub mod permitted;
pub mod piece;
pub mod port;
pub mod preview;
pub mod refusal;
pub mod regulator;
pub mod schedule;
pub mod short_traces;
pub mod size;
pub mod square;
pub mod stream;
pub mod text;
pub mod tiny;
pub mod trace;
pub mod worst;

/// The least of some packet counts; with none to choose from, nothing is imposed.
fn least(counts: impl Iterator<Item = u64>) -> u64 {
    counts.fold(u64::MAX, u64::min)
}
