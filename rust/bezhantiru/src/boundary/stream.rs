//! The counts of a stream file.

/// Where the counts of a stream file stand, in bytes.
#[derive(Clone, Copy, Debug, PartialEq, Eq)]
#[repr(C)]
pub struct Part {
    pub number: u32,
    pub from: u64,
    pub bytes: u64,
}

mod library {
    use super::Part;

    // SAFETY: the signature is that of `include/bezhantiru.h`; `tests/library/layout.rs` compares
    // the struct with what a C compiler makes of it.
    unsafe extern "C" {
        /// Unsafe because the file is a pointer and a length.
        pub fn bezhantiru_counts_part(file: *const u8, file_len: usize) -> Part;
    }
}

/// `bezhantiru_counts_part`
pub fn counts_part(file: &[u8]) -> Part {
    // SAFETY: pointer and length are one slice's, which outlives the call; the pointer of an empty
    // slice is aligned and not null.
    unsafe { library::bezhantiru_counts_part(file.as_ptr(), file.len()) }
}
