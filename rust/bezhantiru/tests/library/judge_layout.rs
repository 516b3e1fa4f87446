//! The judge's answer on both sides of the boundary: by hand, as Rust lays it out, and as a C compiler
//! does with the header.

use bezhantiru::boundary::Judgement;

use crate::lines::{self, lines};

const BY_HAND: &str = "\
bezhantiru_judgement: 16 bytes, aligned to 4
bezhantiru_judgement.number: 4 bytes at 0
bezhantiru_judgement.rule: 4 bytes at 4
bezhantiru_judgement.slot: 4 bytes at 8
bezhantiru_judgement.window: 4 bytes at 12
";

#[test]
fn both_sides_lay_the_answer_out_as_by_hand() {
    let in_rust = lines!(
        "bezhantiru_judgement",
        Judgement,
        number,
        rule,
        slot,
        window
    );
    lines::check("judge_layout", &in_rust, BY_HAND);
}
