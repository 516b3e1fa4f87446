//! Files with several faults at once: only the order of document 01 gives the right number.
//!
//! The faults stand in that order, so the wanted number is that of the first one, without asking
//! the reference.

use reference::refusal::{self, Refusal};
use tests_program::compare::{check_each, compare_with};
use tests_program::program::Program;

use Fault::{Cut, Lengthened, Word};

/// L 4, T 6, m 3, d 1, q 9; the table; the bursts' slots; their counts.
const FILE: [u32; 16] = [4, 6, 3, 1, 9, 0, 2, 4, 5, 6, 1, 3, 6, 7, 0, 2];

/// A file cut to 19 bytes, a number of it changed, or a byte added at its end.
enum Fault {
    Cut,
    Word(usize, u32),
    Lengthened,
}

const FAULTS: [(u8, Fault); 16] = [
    (12, Cut),
    (1, Word(0, 65)),
    (10, Word(1, 4_097)),
    (10, Word(2, 4_097)),
    (13, Lengthened),
    (2, Word(5, 1)),
    (4, Word(7, 1)),
    (3, Word(8, 1_000_001)),
    (4, Word(9, 3)),
    (6, Word(3, 65)),
    (7, Word(4, 1_000_001)),
    (14, Word(10, 0)),
    (14, Word(11, 1)),
    (14, Word(12, 7)),
    (8, Word(13, 1_000_001)),
    (8, Word(15, u32::MAX)),
];

/// The faults whose bits are set in the choice.
fn chosen(choice: usize) -> impl Iterator<Item = &'static (u8, Fault)> {
    let bits = (0..FAULTS.len()).filter(move |bit| choice >> bit & 1 == 1);
    bits.map(|bit| &FAULTS[bit])
}

fn file(choice: usize) -> Vec<u8> {
    let mut words = FILE;
    let (mut cut, mut lengthened) = (false, false);
    for (_, fault) in chosen(choice) {
        match *fault {
            Cut => cut = true,
            Word(place, number) => words[place] = number,
            Lengthened => lengthened = true,
        }
    }
    let mut bytes: Vec<u8> = words.iter().flat_map(|word| word.to_le_bytes()).collect();
    bytes.extend(lengthened.then_some(0));
    bytes.truncate(if cut { 19 } else { bytes.len() });
    bytes
}

fn first_number(choice: usize) -> Option<u8> {
    chosen(choice).map(|(number, _)| *number).next()
}

#[test]
fn the_reference_gives_the_first_number_of_any_faults() {
    for choice in 0..1 << FAULTS.len() {
        let found = refusal::file(&file(choice)).err().map(Refusal::number);
        assert_eq!(found, first_number(choice), "choice {choice:#b}");
    }
}

#[test]
fn the_program_gives_the_first_number_of_up_to_three_faults() {
    let program = Program::find().unwrap_or_else(|problem| panic!("{problem}"));
    let few = |choice: &usize| (1..=3).contains(&choice.count_ones());
    let choices: Vec<usize> = (1..1 << FAULTS.len()).filter(few).collect();
    check_each(choices.len(), |number| {
        let choice = choices[number];
        let first = first_number(choice).expect("a fault");
        let file = file(choice);
        let wanted = format!("refused {first}\n");
        compare_with(&wanted, program.print(&file), &file)
    });
}
