//! The stream file of a run that is timed has the run's table, limits and trace.

use bench::cases::{Case, LAST_WINDOWS, RUN_DELAY, Side, TRACE_SLOTS};
use bench::samples;
use reference::layout::StreamFile;

const BUFFER: u32 = 60;

#[test]
fn a_run_in_a_stream_file() {
    for last_window in LAST_WINDOWS {
        for slots in TRACE_SLOTS {
            let run = Case::run(Side::Library, last_window, RUN_DELAY, slots);
            let file = StreamFile::from_bytes(&run.stream().expect("a run"));
            let table = samples::table(last_window);
            let arrivals = samples::arrivals(&table, slots);
            let wanted = StreamFile::of_arrivals(&table, (RUN_DELAY, BUFFER), &arrivals);
            assert_eq!(file, Ok(wanted));
        }
    }
}

#[test]
fn no_other_work_has_one() {
    let others = [
        Case::live(Side::Library, 8, RUN_DELAY),
        Case::path(2, 8, RUN_DELAY, 512),
        Case::question(Side::Library, 8),
    ];
    assert!(others.iter().all(|case| case.stream().is_none()));
}
