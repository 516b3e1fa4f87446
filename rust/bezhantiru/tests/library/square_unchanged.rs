//! A square's run from C: refused ones leave every byte of the lists as it was, accepted ones write all
//! of the lists and nothing beside them. The rows are those of `docs/PENCIL.md`, which the reference's
//! own tests have too.

use crate::in_c::{archive, ran};

const BY_HAND: &str = "\
2336 refused, 34 accepted, 0 changed
number 0, admitted 4 2 1 0 0 0 1, dropped 1 1 0 2 6 0 0, departed 2 1 0 0 0 3 2
number 0, admitted 3 0 0 0 3 0, dropped 2 3 1 2 3 0, departed 2 1 0 0 0 3
";

#[test]
fn refused_runs_change_no_byte() {
    if let Some(said) = ran("square_unchanged", &[archive()]) {
        assert_eq!(said, BY_HAND);
    }
}
