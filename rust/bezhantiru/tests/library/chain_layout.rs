//! The answers of finder and checker on both sides of the boundary: by hand, as Rust lays them out,
//! and as a C compiler does with the header.

use bezhantiru::boundary::chain::{ChainVerdict, FoundChain};

use crate::lines::{self, lines};

const BY_HAND: &str = "\
bezhantiru_chain: 8 bytes, aligned to 4
bezhantiru_chain.number: 4 bytes at 0
bezhantiru_chain.places: 4 bytes at 4
bezhantiru_chain_verdict: 8 bytes, aligned to 4
bezhantiru_chain_verdict.number: 4 bytes at 0
bezhantiru_chain_verdict.sound: 4 bytes at 4
";

fn in_rust() -> String {
    [
        lines!("bezhantiru_chain", FoundChain, number, places),
        lines!("bezhantiru_chain_verdict", ChainVerdict, number, sound),
    ]
    .concat()
}

#[test]
fn both_sides_lay_the_answers_out_as_by_hand() {
    lines::check("chain_layout", &in_rust(), BY_HAND);
}
