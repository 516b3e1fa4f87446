//! A square that is timed answers what the table beside it answers.

use bench::answers::agree;
use bench::cases::{Case, LAST_WINDOWS, SQUARE_DELAYS};

#[test]
fn a_square_and_its_table_answer_alike() {
    for last_window in LAST_WINDOWS {
        for delay in SQUARE_DELAYS {
            assert_eq!(agree(&Case::squares(last_window, delay)), Ok(()));
        }
    }
}
