//! Certificates from C: document 01's row certified and checked through the header, also with one number
//! replaced; and every byte that a refused call is lent as it was.

use crate::in_c::{archive, ran};

const BY_HAND: &str = "\
number 0: 0/2/0 1/1/0 0/2/0 3/1/0
number 0, rule 0, slot 0, window 0
number 0, rule 6, slot 2, window 0
number 0, rule 6, slot 4, window 0
number 0, rule 7, slot 3, window 0
number 0, rule 3, slot 1, window 1
32796 refused, 0 wrong, 0 changed
";

#[test]
fn answers_are_those_by_hand_and_refused_calls_change_no_byte() {
    if let Some(said) = ran("certificate_unchanged", &[archive()]) {
        assert_eq!(said, BY_HAND);
    }
}
