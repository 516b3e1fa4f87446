//! The reference's records in the library's words.

use bezhantiru::Record;
use reference::fill;

pub fn record(wanted: &fill::Record) -> Record {
    Record {
        held_before: wanted.held_before,
        admitted: wanted.admitted,
        dropped: wanted.dropped,
        departed: wanted.departed,
    }
}
