//! Anyone's rows judged from C: document 01's row under q 4, permitted and with one number replaced
//! for each rule, and refused calls; no byte lent is changed.

use crate::in_c::{archive, ran};

const BY_HAND: &str = "\
number 0, rule 0, slot 0, window 0
number 0, rule 1, slot 4, window 0
number 0, rule 2, slot 1, window 0
number 0, rule 3, slot 1, window 1
number 0, rule 4, slot 1, window 0
number 0, rule 5, slot 4, window 0
8204 refused, 0 wrong, 0 changed
";

#[test]
fn verdicts_are_those_by_hand_and_no_call_changes_a_byte() {
    if let Some(said) = ran("judge_unchanged", &[archive()]) {
        assert_eq!(said, BY_HAND);
    }
}
