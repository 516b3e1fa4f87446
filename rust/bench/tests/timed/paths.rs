//! A path that is timed answers at its entrance and its last stage what the one regulator beside it
//! answers.

use bench::answers::agree;
use bench::cases::{Case, LAST_WINDOWS, PATH_DELAYS, PATH_SLOTS, STAGES, Side};
use bench::samples;

#[test]
fn a_path_and_one_regulator_answer_alike() {
    for last_window in LAST_WINDOWS {
        for (delay, slots) in PATH_DELAYS.into_iter().zip(PATH_SLOTS) {
            let one = Case::run(Side::Library, last_window, delay, slots);
            for stages in STAGES {
                let path = Case::path(stages, last_window, delay, slots);
                assert_eq!(agree(&[path, one.clone()]), Ok(()));
            }
        }
    }
}

/// Stages with one and the same table would leave nothing to merge at the entrance.
#[test]
fn the_stages_have_tables_of_their_own() {
    for stages in STAGES {
        let mut tables = samples::stages(&samples::table(8), stages);
        tables.sort();
        tables.dedup();
        assert_eq!(tables.len(), stages);
    }
}
