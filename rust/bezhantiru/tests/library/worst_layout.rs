//! The answer of the trace that loses most on both sides of the boundary: by hand, as Rust lays it
//! out, and as a C compiler does with the header.

use bezhantiru::boundary::Worst;

use crate::lines::{self, lines};

const BY_HAND: &str = "\
bezhantiru_worst: 8 bytes, aligned to 4
bezhantiru_worst.number: 4 bytes at 0
bezhantiru_worst.loss: 4 bytes at 4
";

#[test]
fn both_sides_lay_the_answer_out_as_by_hand() {
    let in_rust = lines!("bezhantiru_worst", Worst, number, loss);
    lines::check("worst_layout", &in_rust, BY_HAND);
}
