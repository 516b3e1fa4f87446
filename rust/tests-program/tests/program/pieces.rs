//! A file may reach standard input in any pieces.

use reference::text::printed;
use tests_program::compare::{check_each, compare_with};
use tests_program::dice::Dice;
use tests_program::draw;
use tests_program::program::Program;

const SIZES: [usize; 8] = [1, 3, 4, 7, 19, 20, 21, 40];

#[test]
fn pieces_make_no_difference() {
    let program = Program::find().unwrap_or_else(|problem| panic!("{problem}"));
    let short = draw::roomy(&mut Dice::new(7, 7)).to_bytes();
    let long = draw::stream(&mut Dice::new(8, 8), 64, 64, 1_000, 1_000).to_bytes();
    let in_pieces = |file: &[u8], size: usize| {
        let pieces: Vec<&[u8]> = file.chunks(size).collect();
        compare_with(&printed(file), program.print_pieces(&pieces), file)
    };
    check_each(SIZES.len(), |number| {
        in_pieces(&short, SIZES[number])?;
        in_pieces(&short[..short.len() - 1], SIZES[number])?;
        in_pieces(&long, 100 * SIZES[number])
    });
}
