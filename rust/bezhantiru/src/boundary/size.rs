//! The smallest limits.

/// A limit and what is lost with it; all but the number are 0 where the call is refused.
#[derive(Clone, Copy, Debug, PartialEq, Eq)]
#[repr(C)]
pub struct Size {
    pub number: u32,
    /// 1 where some limit loses no more than was asked for, else 0.
    pub found: u32,
    /// The smallest that does, or the greatest.
    pub limit: u32,
    /// By the last slot, in packets.
    pub lost: u32,
}

mod library {
    use super::Size;

    // SAFETY: the signatures are those of `include/bezhantiru.h`; `tests/library/size_layout.rs`
    // compares the struct with what a C compiler makes of it.
    unsafe extern "C" {
        /// Unsafe because the table and the trace are pointers and lengths.
        pub fn bezhantiru_smallest_buffer(
            table: *const u32,
            table_len: usize,
            delay: u32,
            arrivals: *const u32,
            arrivals_len: usize,
            most_lost: u32,
        ) -> Size;

        /// Unsafe because the table and the trace are pointers and lengths.
        pub fn bezhantiru_smallest_delay(
            table: *const u32,
            table_len: usize,
            buffer: u32,
            arrivals: *const u32,
            arrivals_len: usize,
            most_lost: u32,
        ) -> Size;
    }
}

/// `bezhantiru_smallest_buffer`
pub fn smallest_buffer(table: &[u32], delay: u32, arrivals: &[u32], most_lost: u32) -> Size {
    // SAFETY: each pointer and length are one slice's, which outlives the call; the pointer of an
    // empty slice is aligned and not null. Nothing is written.
    unsafe {
        library::bezhantiru_smallest_buffer(
            table.as_ptr(),
            table.len(),
            delay,
            arrivals.as_ptr(),
            arrivals.len(),
            most_lost,
        )
    }
}

/// `bezhantiru_smallest_delay`
pub fn smallest_delay(table: &[u32], buffer: u32, arrivals: &[u32], most_lost: u32) -> Size {
    // SAFETY: as above.
    unsafe {
        library::bezhantiru_smallest_delay(
            table.as_ptr(),
            table.len(),
            buffer,
            arrivals.as_ptr(),
            arrivals.len(),
            most_lost,
        )
    }
}
