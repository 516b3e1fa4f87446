//! The regulator written in Rust for speed, beside which the proved one is measured, and the
//! measuring. The same algorithm, the same refusals, nothing proved.

// `quick_again` is there to be a second copy.
#![allow(clippy::duplicate_mod)]

pub mod answers;
pub mod cases;
pub mod certificates;
pub mod chains;
pub mod clock;
pub mod count;
pub mod heads;
pub mod places;
pub mod ports;
pub mod printing;
pub mod program;
pub mod quick;
/// The same source compiled once more, to see how far apart two equal sides are measured.
#[path = "quick.rs"]
pub mod quick_again;
pub mod report;
pub mod samples;
mod shown;
pub mod sliding;
mod work;
