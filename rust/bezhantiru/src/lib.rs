//! The proved least-loss regulator, called safely: every call returns, and a refused one leaves
//! what it was lent as it was. Documents 01 and 02 say what the numbers mean.
//!
//! ```
//! use bezhantiru::{NO_BUFFER, Refusal, Regulator};
//!
//! # fn main() -> Result<(), Refusal> {
//! let mut regulator = Regulator::set_up(&[0, 2, 3], 1, NO_BUFFER)?;
//! let record = regulator.slot(5)?;
//! assert_eq!((record.held_before, record.admitted), (0, 3));
//! assert_eq!((record.dropped, record.departed), (2, 2));
//! assert_eq!((record.form_fill(), record.bench_fill()), (1, 3));
//! assert_eq!(regulator.slot(1_000_001), Err(Refusal::TooManyArrivals));
//! assert_eq!((regulator.form_peak(), regulator.bench_peak()), (1, 3));
//! # Ok(())
//! # }
//! ```

#![deny(unsafe_code)]

pub mod boundary;
mod certificate;
mod chain;
mod device;
mod envelope;
mod judge;
pub mod path;
pub mod pencil;
pub mod port;
mod preview;
mod record;
mod refusal;
mod regulator;
mod size;
pub mod square;
pub mod stream;
mod trace;
mod worst;

pub use boundary::certificate::{Certificate, CertificateLists};
pub use boundary::chain::{Chain, ChainLists};
pub use boundary::{Lists, PortLists, Rows};
pub use certificate::{Checked, Link, certify, check_certificate};
pub use chain::{check_chain, find_chain};
pub use device::Device;
pub use envelope::{Bound, envelope};
pub use judge::{Rule, Verdict, judge};
pub use preview::Preview;
pub use record::Record;
pub use refusal::Refusal;
pub use regulator::Regulator;
pub use size::{Size, smallest_buffer, smallest_delay};
pub use trace::run;
pub use worst::worst_trace;

/// The delay limit's number for none.
pub const NO_DELAY: u32 = 255;
/// The buffer limit's number for none. Any other bounds the packets that are there before a slot's
/// departures; with 0 nothing is admitted.
pub const NO_BUFFER: u32 = 4_294_967_295;
