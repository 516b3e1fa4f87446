//! The readers of a record, the peaks, the counts' part and the envelope's pieces from C.

use crate::in_c::{archive, ran};

const BY_HAND: &str = "\
form 5, bench 7
form 0, bench 7
form 18446744073709551614, bench 18446744073709551615
form 18446744073709551615, bench 18446744073709551615
number 0, held before 0, peaks 3 and 5
number 8, held before 0, peaks 3 and 5
number 0, held before 3, peaks 3 and 5
number 0, held before 2, peaks 4 and 6
number 0, 4 bytes from 32
number 13, 0 bytes from 0
number 0, piece 2, packets 6
number 0, piece 1, packets 4
number 0, piece 0, packets 0
number 0, piece 2, packets 6240
number 5, piece 0, packets 0
number 1, piece 0, packets 0
";

#[test]
fn fills_peaks_parts_and_pieces_as_by_hand() {
    if let Some(in_c) = ran("readers", &[archive()]) {
        assert_eq!(in_c, BY_HAND);
    }
}
