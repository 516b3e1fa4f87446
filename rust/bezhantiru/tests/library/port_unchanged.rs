//! A port's run from C: refused ones leave every byte of both lists as it was, accepted ones write all
//! of both and nothing beside them. The rows are those of `docs/PENCIL.md`, in both numberings of the
//! streams, which the reference's own tests have too.

use crate::in_c::{archive, ran};

const BY_HAND: &str = "\
1154 refused, 56 accepted, 0 changed
number 0, sent 1 1 0 1 | 1 1 2 1, late 0 2
number 0, sent 1 2 2 1 | 1 0 0 1, late 0 2
";

#[test]
fn refused_runs_change_no_byte() {
    if let Some(said) = ran("port_unchanged", &[archive()]) {
        assert_eq!(said, BY_HAND);
    }
}
