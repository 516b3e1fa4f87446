//! The answer of the smallest limits on both sides of the boundary: by hand, as Rust lays it out, and as
//! a C compiler does with the header.

use bezhantiru::boundary::Size;

use crate::lines::{self, lines};

const BY_HAND: &str = "\
bezhantiru_size: 16 bytes, aligned to 4
bezhantiru_size.number: 4 bytes at 0
bezhantiru_size.found: 4 bytes at 4
bezhantiru_size.limit: 4 bytes at 8
bezhantiru_size.lost: 4 bytes at 12
";

#[test]
fn both_sides_lay_the_answer_out_as_by_hand() {
    let in_rust = lines!("bezhantiru_size", Size, number, found, limit, lost);
    lines::check("size_layout", &in_rust, BY_HAND);
}
