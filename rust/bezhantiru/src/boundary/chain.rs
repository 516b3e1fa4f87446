//! The boundary of chains: their answers, their lists and the two functions.

/// A chain that was found; no places where the call is refused.
#[derive(Clone, Copy, Debug, PartialEq, Eq)]
#[repr(C)]
pub struct FoundChain {
    pub number: u32,
    /// One for slot 0 and one for each link.
    pub places: u32,
}

/// The answer of the checker; 0 where the call is refused.
#[derive(Clone, Copy, Debug, PartialEq, Eq)]
#[repr(C)]
pub struct ChainVerdict {
    pub number: u32,
    /// 1 for a sound chain, 0 for any other.
    pub sound: u32,
}

/// The three lists that a found chain is written to, each one longer than the trace.
#[derive(Debug)]
pub struct ChainLists<'a> {
    pub slots: &'a mut [u32],
    pub marks: &'a mut [u32],
    pub amounts: &'a mut [u32],
}

/// Anyone's chain: its places stand first in three lists, each one longer than the trace.
#[derive(Clone, Copy, Debug)]
pub struct Chain<'a> {
    pub slots: &'a [u32],
    pub marks: &'a [u32],
    pub amounts: &'a [u32],
    pub places: u32,
}

mod library {
    use super::{ChainVerdict, FoundChain};

    // SAFETY: the signatures are those of `include/bezhantiru.h`; `tests/library/chain_layout.rs`
    // compares the structs with what a C compiler makes of them.
    unsafe extern "C" {
        /// Unsafe because the table, the trace and the lists are pointers and lengths.
        pub fn bezhantiru_find_chain(
            table: *const u32,
            table_len: usize,
            delay: u32,
            buffer: u32,
            arrivals: *const u32,
            arrivals_len: usize,
            slot: u32,
            slots: *mut u32,
            slots_len: usize,
            marks: *mut u32,
            marks_len: usize,
            amounts: *mut u32,
            amounts_len: usize,
        ) -> FoundChain;

        /// Unsafe because the table, the trace and the lists are pointers and lengths.
        pub fn bezhantiru_check_chain(
            table: *const u32,
            table_len: usize,
            delay: u32,
            buffer: u32,
            arrivals: *const u32,
            arrivals_len: usize,
            slot: u32,
            slots: *const u32,
            slots_len: usize,
            marks: *const u32,
            marks_len: usize,
            amounts: *const u32,
            amounts_len: usize,
            places: u32,
        ) -> ChainVerdict;
    }
}

/// `bezhantiru_find_chain`
pub fn find_chain(
    table: &[u32],
    delay: u32,
    buffer: u32,
    arrivals: &[u32],
    slot: u32,
    lists: ChainLists<'_>,
) -> FoundChain {
    let ChainLists {
        slots,
        marks,
        amounts,
    } = lists;
    // SAFETY: each pointer and length are one slice's, which outlives the call; the pointer of an
    // empty slice is aligned and not null. The lists that are written are borrowed mutably, so they
    // overlap nothing.
    unsafe {
        library::bezhantiru_find_chain(
            table.as_ptr(),
            table.len(),
            delay,
            buffer,
            arrivals.as_ptr(),
            arrivals.len(),
            slot,
            slots.as_mut_ptr(),
            slots.len(),
            marks.as_mut_ptr(),
            marks.len(),
            amounts.as_mut_ptr(),
            amounts.len(),
        )
    }
}

/// `bezhantiru_check_chain`
pub fn check_chain(
    table: &[u32],
    delay: u32,
    buffer: u32,
    arrivals: &[u32],
    slot: u32,
    chain: Chain<'_>,
) -> ChainVerdict {
    let Chain {
        slots,
        marks,
        amounts,
        places,
    } = chain;
    // SAFETY: each pointer and length are one slice's, which outlives the call; the pointer of an
    // empty slice is aligned and not null. Nothing is written.
    unsafe {
        library::bezhantiru_check_chain(
            table.as_ptr(),
            table.len(),
            delay,
            buffer,
            arrivals.as_ptr(),
            arrivals.len(),
            slot,
            slots.as_ptr(),
            slots.len(),
            marks.as_ptr(),
            marks.len(),
            amounts.as_ptr(),
            amounts.len(),
            places,
        )
    }
}
