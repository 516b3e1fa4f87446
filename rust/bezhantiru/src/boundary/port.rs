//! The shared port's run.

/// The two lists that a port's run fills: packets sent, streams × slots long, and late packets, one
/// count a stream.
#[derive(Debug)]
pub struct PortLists<'a> {
    pub sent: &'a mut [u32],
    pub late: &'a mut [u32],
}

mod library {
    // SAFETY: the signature is that of `include/bezhantiru.h`.
    unsafe extern "C" {
        /// Unsafe because the deadlines, the input and the lists are pointers and lengths.
        pub fn bezhantiru_port_run(
            deadlines: *const u32,
            deadlines_len: usize,
            slots: u32,
            capacity: u32,
            input: *const u32,
            input_len: usize,
            sent: *mut u32,
            sent_len: usize,
            late: *mut u32,
            late_len: usize,
        ) -> u32;
    }
}

/// `bezhantiru_port_run`
pub fn port_run(
    deadlines: &[u32],
    slots: u32,
    capacity: u32,
    input: &[u32],
    lists: PortLists<'_>,
) -> u32 {
    let PortLists { sent, late } = lists;
    // SAFETY: each pointer and length are one slice's, which outlives the call; the pointer of an
    // empty slice is aligned and not null. The lists that are written are borrowed mutably, so they
    // overlap nothing.
    unsafe {
        library::bezhantiru_port_run(
            deadlines.as_ptr(),
            deadlines.len(),
            slots,
            capacity,
            input.as_ptr(),
            input.len(),
            sent.as_mut_ptr(),
            sent.len(),
            late.as_mut_ptr(),
            late.len(),
        )
    }
}
