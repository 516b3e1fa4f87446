//! The trace that loses most.

/// What is lost of the trace; 0 where the call is refused.
#[derive(Clone, Copy, Debug, PartialEq, Eq)]
#[repr(C)]
pub struct Worst {
    pub number: u32,
    /// By the last slot, in packets.
    pub loss: u32,
}

mod library {
    use super::Worst;

    // SAFETY: the signature is that of `include/bezhantiru.h`; `tests/library/worst_layout.rs`
    // compares the struct with what a C compiler makes of it.
    unsafe extern "C" {
        /// Unsafe because the table and the list are pointers and lengths.
        pub fn bezhantiru_worst_trace(
            table: *const u32,
            table_len: usize,
            delay: u32,
            buffer: u32,
            slots: u32,
            most_in_slot: u32,
            most_in_all: u32,
            trace: *mut u32,
            trace_len: usize,
        ) -> Worst;
    }
}

/// `bezhantiru_worst_trace`
pub fn worst_trace(
    table: &[u32],
    delay: u32,
    buffer: u32,
    slots: u32,
    most_in_slot: u32,
    most_in_all: u32,
    trace: &mut [u32],
) -> Worst {
    // SAFETY: each pointer and length are one slice's, which outlives the call; the pointer of an
    // empty slice is aligned and not null. The list that is written is borrowed mutably, so it
    // overlaps nothing.
    unsafe {
        library::bezhantiru_worst_trace(
            table.as_ptr(),
            table.len(),
            delay,
            buffer,
            slots,
            most_in_slot,
            most_in_all,
            trace.as_mut_ptr(),
            trace.len(),
        )
    }
}
