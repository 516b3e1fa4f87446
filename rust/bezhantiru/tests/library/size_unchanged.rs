//! The smallest limits from C: document 01's row with every number of packets, and refused calls; no byte
//! lent is changed.

use crate::in_c::{archive, ran};

/// Table 0,2,3 and arrivals 5,0,4,0. With d 1 and q 0, 1, 2, 3 are lost 9, 7, 5, 3; with q 9 and d 0, 1,
/// 2, 3 are lost 5, 3, 1, 0.
const BY_HAND: &str = "\
buffer, 0 lost: number 0, found 0, limit 1000000, lost 3
buffer, 3 lost: number 0, found 1, limit 3, lost 3
buffer, 6 lost: number 0, found 1, limit 2, lost 5
buffer, 9 lost: number 0, found 1, limit 0, lost 9
delay, 0 lost: number 0, found 1, limit 3, lost 0
delay, 3 lost: number 0, found 1, limit 1, lost 3
delay, 6 lost: number 0, found 1, limit 0, lost 5
delay, 9 lost: number 0, found 1, limit 0, lost 5
14 refused, 0 wrong, 0 changed
";

#[test]
fn sizes_are_those_by_hand_and_no_call_changes_a_byte() {
    if let Some(said) = ran("size_unchanged", &[archive()]) {
        assert_eq!(said, BY_HAND);
    }
}
