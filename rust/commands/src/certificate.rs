//! A stream's certificate as it is printed, and anyone's held to a stream file and its table: the library
//! finds links, judges rows and checks links.

mod printed;
mod slots;
mod table;
mod verdict;

pub use slots::{ARRIVALS, AdmittedLink, Certificate, DELAY, HEADING, Slot};
pub use table::{Stream, Table};
pub use verdict::{verdict, words};

/// No table or certificate is as long as this, so that what stands behind it decides nothing.
pub const MOST_BYTES: u64 = 1 << 20;
