//! The boundary of certificates: their lists and the two functions.

use super::judge::{Judgement, Rows};

/// The three lists that a found certificate is written to, each as long as the trace.
#[derive(Debug)]
pub struct CertificateLists<'a> {
    pub admitted_from: &'a mut [u32],
    pub admitted_by: &'a mut [u32],
    pub departed_from: &'a mut [u32],
}

/// Anyone's links: for slots 1, 2, .. the admitted link's first slot and mark (1 arrivals, 2 delay, 3
/// buffer) and the departed link's first slot; each list is as long as the trace.
#[derive(Clone, Copy, Debug)]
pub struct Certificate<'a> {
    pub admitted_from: &'a [u32],
    pub admitted_by: &'a [u32],
    pub departed_from: &'a [u32],
}

mod library {
    use super::Judgement;

    // SAFETY: the signatures are those of `include/bezhantiru.h`; `tests/library/judge_layout.rs`
    // compares the struct with what a C compiler makes of it.
    unsafe extern "C" {
        /// Unsafe because the table, the trace and the lists are pointers and lengths.
        pub fn bezhantiru_certify(
            table: *const u32,
            table_len: usize,
            delay: u32,
            buffer: u32,
            arrivals: *const u32,
            arrivals_len: usize,
            admitted_from: *mut u32,
            admitted_from_len: usize,
            admitted_by: *mut u32,
            admitted_by_len: usize,
            departed_from: *mut u32,
            departed_from_len: usize,
        ) -> u32;

        /// Unsafe because the table, the trace and the lists are pointers and lengths.
        pub fn bezhantiru_check_certificate(
            table: *const u32,
            table_len: usize,
            delay: u32,
            buffer: u32,
            arrivals: *const u32,
            arrivals_len: usize,
            admitted: *const u32,
            admitted_len: usize,
            departed: *const u32,
            departed_len: usize,
            admitted_from: *const u32,
            admitted_from_len: usize,
            admitted_by: *const u32,
            admitted_by_len: usize,
            departed_from: *const u32,
            departed_from_len: usize,
        ) -> Judgement;
    }
}

/// `bezhantiru_certify`
pub fn certify(
    table: &[u32],
    delay: u32,
    buffer: u32,
    arrivals: &[u32],
    lists: CertificateLists<'_>,
) -> u32 {
    let CertificateLists {
        admitted_from,
        admitted_by,
        departed_from,
    } = lists;
    // SAFETY: each pointer and length are one slice's, which outlives the call; the pointer of an
    // empty slice is aligned and not null. The lists that are written are borrowed mutably, so they
    // overlap nothing.
    unsafe {
        library::bezhantiru_certify(
            table.as_ptr(),
            table.len(),
            delay,
            buffer,
            arrivals.as_ptr(),
            arrivals.len(),
            admitted_from.as_mut_ptr(),
            admitted_from.len(),
            admitted_by.as_mut_ptr(),
            admitted_by.len(),
            departed_from.as_mut_ptr(),
            departed_from.len(),
        )
    }
}

/// `bezhantiru_check_certificate`
pub fn check_certificate(
    table: &[u32],
    delay: u32,
    buffer: u32,
    arrivals: &[u32],
    rows: Rows<'_>,
    certificate: Certificate<'_>,
) -> Judgement {
    let Rows { admitted, departed } = rows;
    let Certificate {
        admitted_from,
        admitted_by,
        departed_from,
    } = certificate;
    // SAFETY: each pointer and length are one slice's, which outlives the call; the pointer of an
    // empty slice is aligned and not null. Nothing is written.
    unsafe {
        library::bezhantiru_check_certificate(
            table.as_ptr(),
            table.len(),
            delay,
            buffer,
            arrivals.as_ptr(),
            arrivals.len(),
            admitted.as_ptr(),
            admitted.len(),
            departed.as_ptr(),
            departed.len(),
            admitted_from.as_ptr(),
            admitted_from.len(),
            admitted_by.as_ptr(),
            admitted_by.len(),
            departed_from.as_ptr(),
            departed_from.len(),
        )
    }
}
