//! The whole-trace run under an envelope that varies with time.

use super::Lists;

/// F(s,t), the most that may depart in slots s+1 to t, in row s at place t.
pub type Square = [[u32; 33]; 33];

mod library {
    use super::Square;

    // SAFETY: the signature is that of `include/bezhantiru.h`; a pointer to a row of 33 numbers, the
    // first of 33, is one to all of them.
    unsafe extern "C" {
        /// Unsafe because the square, the trace and the lists are pointers and lengths.
        pub fn bezhantiru_square_run(
            square: *const Square,
            delay: u32,
            buffer: u32,
            arrivals: *const u32,
            arrivals_len: usize,
            admitted: *mut u32,
            admitted_len: usize,
            dropped: *mut u32,
            dropped_len: usize,
            departed: *mut u32,
            departed_len: usize,
        ) -> u32;
    }
}

/// `bezhantiru_square_run`
pub fn square_run(
    square: &Square,
    delay: u32,
    buffer: u32,
    arrivals: &[u32],
    lists: Lists<'_>,
) -> u32 {
    let Lists {
        admitted,
        dropped,
        departed,
    } = lists;
    // SAFETY: the square is borrowed, and each pointer and length are one slice's, which outlives the
    // call; the pointer of an empty slice is aligned and not null. The lists that are written are
    // borrowed mutably, so they overlap nothing.
    unsafe {
        library::bezhantiru_square_run(
            square,
            delay,
            buffer,
            arrivals.as_ptr(),
            arrivals.len(),
            admitted.as_mut_ptr(),
            admitted.len(),
            dropped.as_mut_ptr(),
            dropped.len(),
            departed.as_mut_ptr(),
            departed.len(),
        )
    }
}
