//! Anyone's rows judged.

/// What the judge and the check of a certificate say; rule, slot and window are 0 where the call is
/// refused.
#[derive(Clone, Copy, Debug, PartialEq, Eq)]
#[repr(C)]
pub struct Judgement {
    pub number: u32,
    /// 0 for permitted or certified, else 1 to 5, and for a certificate's links 6 and 7.
    pub rule: u32,
    pub slot: u32,
    /// For rule 3 alone.
    pub window: u32,
}

/// Anyone's rows: the packets admitted and departed in slots 1, 2, ..; each list is as long as the
/// trace.
#[derive(Clone, Copy, Debug)]
pub struct Rows<'a> {
    pub admitted: &'a [u32],
    pub departed: &'a [u32],
}

mod library {
    use super::Judgement;

    // SAFETY: the signature is that of `include/bezhantiru.h`; `tests/library/judge_layout.rs`
    // compares the struct with what a C compiler makes of it.
    unsafe extern "C" {
        /// Unsafe because the table, the trace and the lists are pointers and lengths.
        pub fn bezhantiru_judge(
            table: *const u32,
            table_len: usize,
            delay: u32,
            buffer: u32,
            arrivals: *const u32,
            arrivals_len: usize,
            admitted: *const u32,
            admitted_len: usize,
            departed: *const u32,
            departed_len: usize,
        ) -> Judgement;
    }
}

/// `bezhantiru_judge`
pub fn judge(
    table: &[u32],
    delay: u32,
    buffer: u32,
    arrivals: &[u32],
    rows: Rows<'_>,
) -> Judgement {
    let Rows { admitted, departed } = rows;
    // SAFETY: each pointer and length are one slice's, which outlives the call; the pointer of an
    // empty slice is aligned and not null. Nothing is written.
    unsafe {
        library::bezhantiru_judge(
            table.as_ptr(),
            table.len(),
            delay,
            buffer,
            arrivals.as_ptr(),
            arrivals.len(),
            admitted.as_ptr(),
            admitted.len(),
            departed.as_ptr(),
            departed.len(),
        )
    }
}
