//! The whole-trace run.

/// The three lists that a run fills, each as long as the trace; a path's departed packets are listed
/// for each stage in turn, so that list is as many times as long.
#[derive(Debug)]
pub struct Lists<'a> {
    pub admitted: &'a mut [u32],
    pub dropped: &'a mut [u32],
    pub departed: &'a mut [u32],
}

mod library {
    // SAFETY: the signature is that of `include/bezhantiru.h`.
    unsafe extern "C" {
        /// Unsafe because the table, the trace and the lists are pointers and lengths.
        pub fn bezhantiru_run(
            table: *const u32,
            table_len: usize,
            delay: u32,
            buffer: u32,
            arrivals: *const u32,
            arrivals_len: usize,
            admitted: *mut u32,
            admitted_len: usize,
            dropped: *mut u32,
            dropped_len: usize,
            departed: *mut u32,
            departed_len: usize,
        ) -> u32;
    }
}

/// `bezhantiru_run`
pub fn run(table: &[u32], delay: u32, buffer: u32, arrivals: &[u32], lists: Lists<'_>) -> u32 {
    let Lists {
        admitted,
        dropped,
        departed,
    } = lists;
    // SAFETY: each pointer and length are one slice's, which outlives the call; the pointer of an
    // empty slice is aligned and not null. The lists that are written are borrowed mutably, so they
    // overlap nothing.
    unsafe {
        library::bezhantiru_run(
            table.as_ptr(),
            table.len(),
            delay,
            buffer,
            arrivals.as_ptr(),
            arrivals.len(),
            admitted.as_mut_ptr(),
            admitted.len(),
            dropped.as_mut_ptr(),
            dropped.len(),
            departed.as_mut_ptr(),
            departed.len(),
        )
    }
}
