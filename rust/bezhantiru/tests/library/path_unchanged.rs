//! A path's run from C: refused ones leave every byte of the lists as it was, accepted ones write all
//! of the lists and nothing beside them. One stage and four slots of six are rows of document 01, two
//! stages those of the reference's own tests.

use crate::in_c::{archive, ran};

const BY_HAND: &str = "\
304 refused, 4 accepted, 0 changed
number 0, admitted 3 0 3 0, dropped 2 0 1 0, departed 2 1 2 1
number 0, admitted 2 0 2 0, dropped 3 0 2 0, departed 2 0 2 0 | 1 1 1 1
number 0, admitted 4 4 4 4, dropped 2 2 2 2, departed 4 4 4 4 | 4 4 4 4
number 0, admitted 4 4 4 4, dropped 2 2 2 2, departed 4 4 4 4 | 4 4 4 4 | 4 4 4 4 | 4 4 4 4
";

#[test]
fn refused_runs_change_no_byte() {
    if let Some(said) = ran("path_unchanged", &[archive()]) {
        assert_eq!(said, BY_HAND);
    }
}
