//! The envelope question.

/// The answer of an envelope question.
#[derive(Clone, Copy, Debug, PartialEq, Eq)]
#[repr(C)]
pub struct Bound {
    pub number: u32,
    /// The first piece of the window.
    pub piece: u32,
    pub packets: u64,
}

mod library {
    use super::Bound;

    // SAFETY: the signature is that of `include/bezhantiru.h`; `tests/library/layout.rs` compares
    // the struct with what a C compiler makes of it.
    unsafe extern "C" {
        /// Unsafe because the table is a pointer and a length.
        pub fn bezhantiru_envelope(table: *const u32, table_len: usize, window: u32) -> Bound;
    }
}

/// `bezhantiru_envelope`
pub fn envelope(table: &[u32], window: u32) -> Bound {
    // SAFETY: pointer and length are one slice's, which outlives the call; the pointer of an empty
    // slice is aligned and not null.
    unsafe { library::bezhantiru_envelope(table.as_ptr(), table.len(), window) }
}
