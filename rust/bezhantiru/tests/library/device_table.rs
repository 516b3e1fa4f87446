//! Document 02, 2.2: devices of leaky buckets beside a regulator with a table of the same envelope.

use std::sync::atomic::{AtomicUsize, Ordering};

use bezhantiru::{Device, NO_DELAY, Record, Regulator};
use reference::bucket;
use tests_program::cases::{for_each_drawn, said};
use tests_program::profile::{self, Drawn};

const TABLES: usize = 20_000;

/// A table of the buckets' envelope at windows 0 to L, where it fits into a table, and the first
/// L - d slots of the trace: no window is seen that the table does not have.
fn check_table(drawn: &Drawn, last: usize) -> Result<usize, String> {
    let buckets = drawn.buckets();
    let table = (0..=last).map(|window| bucket::envelope(&buckets, window));
    let table: Option<Vec<u32>> = table
        .map(|entry| {
            u32::try_from(entry)
                .ok()
                .filter(|&entry| entry <= 1_000_000)
        })
        .collect();
    let beyond = if drawn.delay == NO_DELAY {
        0
    } else {
        drawn.delay
    };
    let slots = last.saturating_sub(beyond as usize);
    let Some(table) = table else { return Ok(0) };
    let mut regulator = said(Regulator::set_up(&table, drawn.delay, drawn.buffer))?;
    let mut live = said(Device::set_up(&drawn.profile, drawn.delay, drawn.buffer))?;
    for (index, &arrivals) in drawn.arrivals.iter().take(slots).enumerate() {
        let (found, wanted) = (live.slot(arrivals), regulator.slot(arrivals));
        let found_peaks = (live.form_peak(), live.bench_peak());
        let wanted_peaks = (regulator.form_peak(), regulator.bench_peak());
        if found != wanted || found_peaks != wanted_peaks {
            let arrivals = &drawn.arrivals[..=index];
            return Err(format!(
                "table {table:?}, arrivals {arrivals:?}: found {found:?}, {found_peaks:?}, wanted {wanted:?}, {wanted_peaks:?}"
            ));
        }
    }
    Ok(slots.min(drawn.arrivals.len()))
}

#[test]
fn a_table_of_the_buckets_gives_the_same_records() {
    let compared = AtomicUsize::new(0);
    for_each_drawn(TABLES, |dice| {
        let drawn = profile::device(dice, 64);
        let last = dice.pick([1, 2, 5, 17, 63, 64, 64, 64]);
        let slots = check_table(&drawn, last);
        compared.fetch_add(*slots.as_ref().unwrap_or(&0), Ordering::Relaxed);
        slots.map_err(|problem| format!("{drawn:?}: {problem}"))?;
        Ok(())
    });
    let compared = compared.into_inner();
    println!("{compared} slots compared");
    assert!(compared > 10 * TABLES, "{compared}");
}

/// Beyond its last window a table's closure lies above the buckets: (rate 1, burst 2) allows 5 in
/// three slots, its table 0,3,4 allows 7.
#[test]
fn a_table_of_the_first_windows_allows_more_later() {
    let mut live = Device::set_up(&[1, 2], NO_DELAY, 3).expect("a set-up");
    let mut regulator = Regulator::set_up(&[0, 3, 4], NO_DELAY, 3).expect("a set-up");
    let admitted = |record: Result<Record, _>| record.map(|record| record.admitted);
    let by_buckets = [3; 4].map(|count| admitted(live.slot(count)));
    let by_table = [3; 4].map(|count| admitted(regulator.slot(count)));
    assert_eq!(by_buckets, [3, 3, 1, 1].map(Ok));
    assert_eq!(by_table, [3, 3, 1, 3].map(Ok));
}
