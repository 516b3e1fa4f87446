//! The live regulator: set-up, slot, the record's readers, and preview.

/// What a set-up settles.
#[derive(Clone, Debug, PartialEq, Eq)]
#[repr(C)]
pub struct Settings {
    /// L
    pub last: u32,
    /// d, or 255
    pub delay: u32,
    /// q, or 4,294,967,295
    pub buffer: u64,
    /// f at windows 0 to 128
    pub near_windows: [u32; 129],
}

/// A live regulator. Two are equal if every number in them is.
#[derive(Clone, Debug, PartialEq, Eq)]
#[repr(C)]
pub struct Regulator {
    pub settings: Settings,
    /// Accepted slots so far.
    pub slots: u32,
    /// Packets admitted so far.
    pub admitted: u64,
    /// The greatest fill at a slot's end so far, as the order form reads it.
    pub form_peak: u64,
    /// The greatest fill before a slot's departures so far, as the bench reads it.
    pub bench_peak: u64,
    /// Totals of departed packets: the past, then the last slot's forecast.
    pub row: [u64; 192],
}

/// The answer of a set-up; the regulator of a refused one takes no slot.
#[derive(Clone, Debug, PartialEq, Eq)]
#[repr(C)]
pub struct Made {
    pub number: u32,
    pub regulator: Regulator,
}

/// The answer of a slot: its record.
#[derive(Clone, Copy, Debug, PartialEq, Eq)]
#[repr(C)]
pub struct SlotRow {
    pub number: u32,
    pub held_before: u64,
    pub admitted: u64,
    pub dropped: u64,
    pub departed: u64,
}

/// The answer of a preview: the next slot's record, and the headroom.
#[derive(Clone, Copy, Debug, PartialEq, Eq)]
#[repr(C)]
pub struct PreviewRow {
    pub number: u32,
    pub held_before: u64,
    pub admitted: u64,
    pub dropped: u64,
    pub departed: u64,
    pub headroom: u64,
}

mod library {
    use super::{Made, PreviewRow, Regulator, SlotRow};

    // SAFETY: the signatures are those of `include/bezhantiru.h`; `tests/library/layout.rs`
    // compares the structs with what a C compiler makes of them.
    unsafe extern "C" {
        /// Unsafe because the table is a pointer and a length.
        pub fn bezhantiru_set_up(
            table: *const u32,
            table_len: usize,
            delay: u32,
            buffer: u32,
        ) -> Made;

        /// Safe because a lent regulator is all it reads and writes, whatever numbers are in it.
        pub safe fn bezhantiru_slot(regulator: &mut Regulator, arrivals: u64) -> SlotRow;

        /// Safe because the lent parts are all it reads and writes, whatever numbers are in them.
        pub safe fn bezhantiru_slot_on(
            row: &mut [u64; 192],
            near_windows: &[u32; 129],
            last: u32,
            delay: u32,
            buffer: u64,
            slots: &mut u32,
            admitted: &mut u64,
            form_peak: &mut u64,
            bench_peak: &mut u64,
            arrivals: u64,
        ) -> SlotRow;

        /// Safe because it takes numbers alone, any of them.
        pub safe fn bezhantiru_form_fill(held_before: u64, admitted: u64, departed: u64) -> u64;

        /// Safe because it takes numbers alone, any of them.
        pub safe fn bezhantiru_bench_fill(held_before: u64, admitted: u64) -> u64;

        /// Safe because the lent parts are all it reads, whatever numbers are in them.
        pub safe fn bezhantiru_preview_on(
            row: &[u64; 192],
            near_windows: &[u32; 129],
            last: u32,
            delay: u32,
            buffer: u64,
            slots: u32,
            admitted: u64,
            arrivals: u64,
        ) -> PreviewRow;
    }
}

/// `bezhantiru_set_up`
pub fn set_up(table: &[u32], delay: u32, buffer: u32) -> Made {
    // SAFETY: pointer and length are one slice's, which outlives the call; the pointer of an empty
    // slice is aligned and not null.
    unsafe { library::bezhantiru_set_up(table.as_ptr(), table.len(), delay, buffer) }
}

/// `bezhantiru_slot`
pub fn slot(regulator: &mut Regulator, arrivals: u64) -> SlotRow {
    library::bezhantiru_slot(regulator, arrivals)
}

/// `bezhantiru_slot_in_place`: the same slot over the regulator's parts, so that nothing is copied.
#[inline]
pub fn slot_in_place(regulator: &mut Regulator, arrivals: u64) -> SlotRow {
    let Regulator {
        settings,
        slots,
        admitted,
        form_peak,
        bench_peak,
        row,
    } = regulator;
    library::bezhantiru_slot_on(
        row,
        &settings.near_windows,
        settings.last,
        settings.delay,
        settings.buffer,
        slots,
        admitted,
        form_peak,
        bench_peak,
        arrivals,
    )
}

/// `bezhantiru_form_fill`
pub fn form_fill(held_before: u64, admitted: u64, departed: u64) -> u64 {
    library::bezhantiru_form_fill(held_before, admitted, departed)
}

/// `bezhantiru_bench_fill`
pub fn bench_fill(held_before: u64, admitted: u64) -> u64 {
    library::bezhantiru_bench_fill(held_before, admitted)
}

/// `bezhantiru_preview`
#[inline]
pub fn preview(regulator: &Regulator, arrivals: u64) -> PreviewRow {
    let Regulator {
        settings,
        slots,
        admitted,
        row,
        ..
    } = regulator;
    library::bezhantiru_preview_on(
        row,
        &settings.near_windows,
        settings.last,
        settings.delay,
        settings.buffer,
        *slots,
        *admitted,
        arrivals,
    )
}
