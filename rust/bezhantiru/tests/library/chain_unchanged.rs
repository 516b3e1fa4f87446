//! Chains from C: found and checked through the header, and every byte that a refused call is lent as
//! it was.

use crate::in_c::{archive, ran};

const BY_HAND: &str = "\
number 0: 0/0/0, sound 1, one place more 0
number 0: 0/0/0 1/2/3, sound 1, one place more 0
number 0: 0/0/0 1/2/3 2/1/0, sound 1, one place more 0
number 0: 0/0/0 3/2/6, sound 1, one place more 0
number 0: 0/0/0 3/2/6 4/1/0, sound 1, one place more 0
12192 refused, 0 wrong, 0 changed
";

#[test]
fn chains_are_those_of_the_row_and_refused_calls_change_no_byte() {
    if let Some(said) = ran("chain_unchanged", &[archive()]) {
        assert_eq!(said, BY_HAND);
    }
}
