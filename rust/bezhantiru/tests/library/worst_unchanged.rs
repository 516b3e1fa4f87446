//! The trace that loses most from C: refused calls leave every byte of the list as it was, accepted
//! ones write all of the list and nothing beside it.

use crate::in_c::{archive, ran};

/// Table 0,2,3, d 1, q 9: of 5 in each slot no more than 3, 5, 6 and 8 are admitted by slots 1 to 4.
const BY_HAND: &str = "\
4172 refused, 66 accepted, 0 wrong, 0 changed
number 0, loss 6, trace 5 5 2 0
number 0, loss 12, trace 5 5 5 5
number 0, loss 0, trace 2 1 0 0
number 0, loss 0, trace
";

#[test]
fn traces_are_those_by_hand_and_refused_calls_change_no_byte() {
    if let Some(said) = ran("worst_unchanged", &[archive()]) {
        assert_eq!(said, BY_HAND);
    }
}
