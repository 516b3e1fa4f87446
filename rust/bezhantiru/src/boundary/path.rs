//! The whole-trace run through regulators in a row.

use super::Lists;

mod library {
    // SAFETY: the signature is that of `include/bezhantiru.h`.
    unsafe extern "C" {
        /// Unsafe because the tables, the trace and the lists are pointers and lengths.
        pub fn bezhantiru_path_run(
            stages: u32,
            first: *const u32,
            first_len: usize,
            second: *const u32,
            second_len: usize,
            third: *const u32,
            third_len: usize,
            fourth: *const u32,
            fourth_len: usize,
            delay: u32,
            buffer: u32,
            arrivals: *const u32,
            arrivals_len: usize,
            admitted: *mut u32,
            admitted_len: usize,
            dropped: *mut u32,
            dropped_len: usize,
            departed: *mut u32,
            departed_len: usize,
        ) -> u32;
    }
}

/// `bezhantiru_path_run`; tables beyond the number of stages are lent, and not looked at.
pub fn path_run(
    stages: u32,
    tables: [&[u32]; 4],
    delay: u32,
    buffer: u32,
    arrivals: &[u32],
    lists: Lists<'_>,
) -> u32 {
    let [first, second, third, fourth] = tables;
    let Lists {
        admitted,
        dropped,
        departed,
    } = lists;
    // SAFETY: each pointer and length are one slice's, which outlives the call; the pointer of an
    // empty slice is aligned and not null. The lists that are written are borrowed mutably, so they
    // overlap nothing.
    unsafe {
        library::bezhantiru_path_run(
            stages,
            first.as_ptr(),
            first.len(),
            second.as_ptr(),
            second.len(),
            third.as_ptr(),
            third.len(),
            fourth.as_ptr(),
            fourth.len(),
            delay,
            buffer,
            arrivals.as_ptr(),
            arrivals.len(),
            admitted.as_mut_ptr(),
            admitted.len(),
            dropped.as_mut_ptr(),
            dropped.len(),
            departed.as_mut_ptr(),
            departed.len(),
        )
    }
}
