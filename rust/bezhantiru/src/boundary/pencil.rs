//! All short traces, and the pencil version of the whole-trace run.

use super::Lists;

mod library {
    // SAFETY: the signatures are those of `include/bezhantiru.h`.
    unsafe extern "C" {
        /// Unsafe because the list is a pointer and a length.
        pub fn bezhantiru_short_traces(slots: u32, counts: *mut u32, counts_len: usize) -> u32;

        /// Unsafe because the table, the trace and the lists are pointers and lengths.
        pub fn bezhantiru_pencil_run(
            table: *const u32,
            table_len: usize,
            delay: u32,
            buffer: u32,
            arrivals: *const u32,
            arrivals_len: usize,
            admitted: *mut u32,
            admitted_len: usize,
            dropped: *mut u32,
            dropped_len: usize,
            departed: *mut u32,
            departed_len: usize,
        ) -> u32;
    }
}

/// `bezhantiru_short_traces`
pub fn short_traces(slots: u32, counts: &mut [u32]) -> u32 {
    // SAFETY: pointer and length are one slice's, which outlives the call and is borrowed mutably;
    // the pointer of an empty slice is aligned and not null.
    unsafe { library::bezhantiru_short_traces(slots, counts.as_mut_ptr(), counts.len()) }
}

/// `bezhantiru_pencil_run`
pub fn pencil_run(
    table: &[u32],
    delay: u32,
    buffer: u32,
    arrivals: &[u32],
    lists: Lists<'_>,
) -> u32 {
    let Lists {
        admitted,
        dropped,
        departed,
    } = lists;
    // SAFETY: each pointer and length are one slice's, which outlives the call; the pointer of an
    // empty slice is aligned and not null. The lists that are written are borrowed mutably, so they
    // overlap nothing.
    unsafe {
        library::bezhantiru_pencil_run(
            table.as_ptr(),
            table.len(),
            delay,
            buffer,
            arrivals.as_ptr(),
            arrivals.len(),
            admitted.as_mut_ptr(),
            admitted.len(),
            dropped.as_mut_ptr(),
            dropped.len(),
            departed.as_mut_ptr(),
            departed.len(),
        )
    }
}
