//! All short traces and the pencil version from C: refused calls leave every byte of the lists as it
//! was, accepted ones write all of them and nothing beside them.

use crate::in_c::{archive, ran};

const BY_HAND: &str = "\
58 refused, 12 accepted, 0 changed
two slots: 0 0 0 1 0 2 0 3 1 0 1 1 1 2 1 3 2 0 2 1 2 2 2 3 3 0 3 1 3 2 3 3
number 0, admitted, dropped, departed
number 0, admitted 3 0 3 0 1, dropped 2 0 1 0 0, departed 2 1 2 1 1
";

#[test]
fn lists_are_those_by_hand_and_refused_calls_change_no_byte() {
    if let Some(said) = ran("pencil_unchanged", &[archive()]) {
        assert_eq!(said, BY_HAND);
    }
}
