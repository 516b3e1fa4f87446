//! Both slots from C: refused ones leave every byte of the lent regulator as it was, accepted ones
//! leave the same numbers. The bytes are compared in C, where padding may be read.

use crate::in_c::{archive, ran};

#[test]
fn refused_slots_change_no_byte_and_both_slots_are_the_same() {
    if let Some(said) = ran("unchanged", &[archive()]) {
        assert_eq!(said, "8512 refused, 0 changed, 0 different\n");
    }
}
