//! The device of leaky buckets.

use super::SlotRow;

/// What the set-up of a device settles; the places past the last bucket are 0.
#[derive(Clone, Debug, PartialEq, Eq)]
#[repr(C)]
pub struct DeviceSettings {
    /// The number of buckets.
    pub buckets: u32,
    /// d, or 255
    pub delay: u32,
    /// q, or 4,294,967,295
    pub buffer: u64,
    /// Each bucket's rate, in packets a slot.
    pub rates: [u32; 4],
    /// Each bucket's burst, in packets.
    pub bursts: [u32; 4],
}

/// A device of leaky buckets. Two are equal if every number in them is.
#[derive(Clone, Debug, PartialEq, Eq)]
#[repr(C)]
pub struct Device {
    pub settings: DeviceSettings,
    /// Accepted slots so far.
    pub slots: u32,
    /// Packets admitted so far.
    pub admitted: u64,
    /// Packets departed so far.
    pub departed: u64,
    /// Each bucket's level, as a running total.
    pub levels: [u64; 4],
    /// The greatest fill at a slot's end so far, as the order form reads it.
    pub form_peak: u64,
    /// The greatest fill before a slot's departures so far, as the bench reads it.
    pub bench_peak: u64,
}

/// The answer of a device's set-up; the device of a refused one takes no slot.
#[derive(Clone, Debug, PartialEq, Eq)]
#[repr(C)]
pub struct MadeDevice {
    pub number: u32,
    pub device: Device,
}

mod library {
    use super::{MadeDevice, SlotRow};

    // SAFETY: the signatures are those of `include/bezhantiru.h`; `tests/library/device_layout.rs`
    // compares the structs with what a C compiler makes of them.
    unsafe extern "C" {
        /// Unsafe because the profile is a pointer and a length.
        pub fn bezhantiru_device_set_up(
            profile: *const u32,
            profile_len: usize,
            delay: u32,
            buffer: u32,
        ) -> MadeDevice;

        /// Safe because the lent parts are all it reads and writes, whatever numbers are in them.
        pub safe fn bezhantiru_device_slot_on(
            levels: &mut [u64; 4],
            rates: &[u32; 4],
            bursts: &[u32; 4],
            buckets: u32,
            delay: u32,
            buffer: u64,
            slots: &mut u32,
            admitted: &mut u64,
            departed: &mut u64,
            form_peak: &mut u64,
            bench_peak: &mut u64,
            arrivals: u64,
        ) -> SlotRow;
    }
}

/// `bezhantiru_device_set_up`
pub fn device_set_up(profile: &[u32], delay: u32, buffer: u32) -> MadeDevice {
    let (first, length) = (profile.as_ptr(), profile.len());
    // SAFETY: pointer and length are one slice's, which outlives the call; the pointer of an empty
    // slice is aligned and not null.
    unsafe { library::bezhantiru_device_set_up(first, length, delay, buffer) }
}

/// `bezhantiru_device_slot`
#[inline]
pub fn device_slot(device: &mut Device, arrivals: u64) -> SlotRow {
    let Device {
        settings,
        slots,
        admitted,
        departed,
        levels,
        form_peak,
        bench_peak,
    } = device;
    library::bezhantiru_device_slot_on(
        levels,
        &settings.rates,
        &settings.bursts,
        settings.buckets,
        settings.delay,
        settings.buffer,
        slots,
        admitted,
        departed,
        form_peak,
        bench_peak,
        arrivals,
    )
}
