//! The structs on both sides of the boundary: by hand, as Rust lays them out, and as a C compiler
//! does with the header.

use bezhantiru::boundary::{Bound, Made, Part, PreviewRow, Regulator, Settings, SlotRow};
use bezhantiru::{NO_BUFFER, NO_DELAY};

use crate::in_c::{compiler, here, printed, say_skipped};
use crate::lines::{self, lines};

const BY_HAND: &str = "\
bezhantiru_settings: 536 bytes, aligned to 8
bezhantiru_settings.last: 4 bytes at 0
bezhantiru_settings.delay: 4 bytes at 4
bezhantiru_settings.buffer: 8 bytes at 8
bezhantiru_settings.near_windows: 516 bytes at 16
bezhantiru_regulator: 2104 bytes, aligned to 8
bezhantiru_regulator.settings: 536 bytes at 0
bezhantiru_regulator.slots: 4 bytes at 536
bezhantiru_regulator.admitted: 8 bytes at 544
bezhantiru_regulator.form_peak: 8 bytes at 552
bezhantiru_regulator.bench_peak: 8 bytes at 560
bezhantiru_regulator.row: 1536 bytes at 568
bezhantiru_made: 2112 bytes, aligned to 8
bezhantiru_made.number: 4 bytes at 0
bezhantiru_made.regulator: 2104 bytes at 8
bezhantiru_slot_row: 40 bytes, aligned to 8
bezhantiru_slot_row.number: 4 bytes at 0
bezhantiru_slot_row.held_before: 8 bytes at 8
bezhantiru_slot_row.admitted: 8 bytes at 16
bezhantiru_slot_row.dropped: 8 bytes at 24
bezhantiru_slot_row.departed: 8 bytes at 32
bezhantiru_preview_row: 48 bytes, aligned to 8
bezhantiru_preview_row.number: 4 bytes at 0
bezhantiru_preview_row.held_before: 8 bytes at 8
bezhantiru_preview_row.admitted: 8 bytes at 16
bezhantiru_preview_row.dropped: 8 bytes at 24
bezhantiru_preview_row.departed: 8 bytes at 32
bezhantiru_preview_row.headroom: 8 bytes at 40
bezhantiru_bound: 16 bytes, aligned to 8
bezhantiru_bound.number: 4 bytes at 0
bezhantiru_bound.piece: 4 bytes at 4
bezhantiru_bound.packets: 8 bytes at 8
bezhantiru_part: 24 bytes, aligned to 8
bezhantiru_part.number: 4 bytes at 0
bezhantiru_part.from: 8 bytes at 8
bezhantiru_part.bytes: 8 bytes at 16
no delay: 255
no buffer: 4294967295
";

fn in_rust() -> String {
    [
        lines!(
            "bezhantiru_settings",
            Settings,
            last,
            delay,
            buffer,
            near_windows
        ),
        lines!(
            "bezhantiru_regulator",
            Regulator,
            settings,
            slots,
            admitted,
            form_peak,
            bench_peak,
            row
        ),
        lines!("bezhantiru_made", Made, number, regulator),
        lines!(
            "bezhantiru_slot_row",
            SlotRow,
            number,
            held_before,
            admitted,
            dropped,
            departed
        ),
        lines!(
            "bezhantiru_preview_row",
            PreviewRow,
            number,
            held_before,
            admitted,
            dropped,
            departed,
            headroom
        ),
        lines!("bezhantiru_bound", Bound, number, piece, packets),
        lines!("bezhantiru_part", Part, number, from, bytes),
        format!("no delay: {NO_DELAY}\nno buffer: {NO_BUFFER}\n"),
    ]
    .concat()
}

#[test]
fn both_sides_lay_the_structs_out_as_by_hand() {
    lines::check("layout", &in_rust(), BY_HAND);
}

#[test]
fn the_header_is_c99_and_cpp() {
    for (variable, usual, arguments) in [
        ("CC", "cc", ["-std=c99", "-xc"]),
        ("CXX", "c++", ["-std=c++11", "-xc++"]),
    ] {
        let mut compiler = compiler(variable, usual);
        compiler.args(arguments).arg("-include");
        compiler.arg(here("../../include/bezhantiru.h"));
        compiler.args(["-fsyntax-only", "/dev/null"]);
        if printed(&mut compiler).is_none() {
            say_skipped("include/bezhantiru.h", &compiler);
        }
    }
}
