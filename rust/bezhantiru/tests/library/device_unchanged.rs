//! The slot of a device from C: refused ones leave every byte of it as it was. The bytes are compared
//! in C, where padding may be read.

use crate::in_c::{archive, ran};

const BY_HAND: &str = "\
5024 refused, 1000512 accepted, 0 wrong
number 0: 0/6/0/4 2/6/0/4 4/4/2/4 4/4/2/4, peaks 4 and 8
number 0: 0/6/0/4 2/6/0/4 4/4/2/4 4/4/2/4, peaks 4 and 8
number 0: 0/6/0/6 0/6/0/6 0/6/0/3 3/5/1/1, peaks 7 and 8
number 15: 0/0/0/0 0/0/0/0 0/0/0/0 0/0/0/0, peaks 0 and 0
";

#[test]
fn refused_slots_change_no_byte() {
    if let Some(said) = ran("device_unchanged", &[archive()]) {
        assert_eq!(said, BY_HAND);
    }
}
