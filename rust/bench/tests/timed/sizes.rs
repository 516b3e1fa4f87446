//! The smallest limits that are timed are right: the run loses no more than was asked for with them, and
//! more with one less.

use bench::cases::{LAST_WINDOWS, RUN_DELAY};
use bench::samples;
use bezhantiru::{Lists, Size, run, smallest_buffer, smallest_delay};

const SLOTS: usize = 4_096;
const BUFFER: u32 = 60;

fn lost(table: &[u32], delay: u32, buffer: u32) -> u32 {
    let [mut admitted, mut dropped, mut departed] = [(); 3].map(|()| vec![0; SLOTS]);
    let lists = Lists {
        admitted: &mut admitted,
        dropped: &mut dropped,
        departed: &mut departed,
    };
    let done = run(
        table,
        delay,
        buffer,
        &samples::arrivals(table, SLOTS),
        lists,
    );
    assert_eq!(done, Ok(()));
    dropped.iter().sum()
}

#[test]
fn one_less_loses_more() {
    for last_window in LAST_WINDOWS {
        let table = samples::table(last_window);
        let arrivals = samples::arrivals(&table, SLOTS);
        let most_lost = lost(&table, RUN_DELAY, BUFFER);
        let check = |size, lost_with: &dyn Fn(u32) -> u32| match size {
            Ok(Size::Smallest { limit, lost }) if limit > 0 => {
                assert_eq!(lost, lost_with(limit));
                assert!(lost <= most_lost && lost_with(limit - 1) > most_lost);
            }
            other => panic!("L {last_window}: {other:?}"),
        };
        let buffer = smallest_buffer(&table, RUN_DELAY, &arrivals, most_lost);
        check(buffer, &|buffer| lost(&table, RUN_DELAY, buffer));
        let delay = smallest_delay(&table, BUFFER, &arrivals, most_lost);
        check(delay, &|delay| lost(&table, delay, BUFFER));
    }
}
