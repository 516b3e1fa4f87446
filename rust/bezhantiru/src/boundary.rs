//! The C boundary: the structs and functions of `include/bezhantiru.h` under their names there, and
//! all `unsafe` of this crate. Answers carry their number as it comes; the rest of the crate turns
//! it into a `Result`.

#![allow(unsafe_code)]

pub mod certificate;
pub mod chain;
mod device;
mod envelope;
mod judge;
mod live;
mod path;
mod pencil;
mod port;
mod size;
mod square;
mod stream;
mod trace;
mod worst;

pub use device::{Device, DeviceSettings, MadeDevice, device_set_up, device_slot};
pub use envelope::{Bound, envelope};
pub use judge::{Judgement, Rows, judge};
pub use live::{Made, PreviewRow, Regulator, Settings, SlotRow};
pub use live::{bench_fill, form_fill, preview, set_up, slot, slot_in_place};
pub use path::path_run;
pub use pencil::{pencil_run, short_traces};
pub use port::{PortLists, port_run};
pub use size::{Size, smallest_buffer, smallest_delay};
pub use square::{Square, square_run};
pub use stream::{Part, counts_part};
pub use trace::{Lists, run};
pub use worst::{Worst, worst_trace};
