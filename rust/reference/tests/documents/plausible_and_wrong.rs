//! Document 01, "Plausible and wrong": each mistake gives other rows, or a pair that is not
//! permitted.

use reference::closure::by_recursion;
use reference::permitted::{Pair, Terms, totals};
use reference::regulator::{Count, Limits, clip, next_admitted, next_departed};

const DELAY_1_BUFFER_9: Limits = Limits {
    delay: Some(1),
    buffer: Some(9),
    count: Count::BeforeDepartures,
};

/// Admitted totals under any envelope, the right one or a wrong one.
fn admitted_under(f: &[u64], limits: Limits, arrivals: &[u64]) -> Vec<u64> {
    let mut admitted = vec![0];
    for &count in arrivals {
        admitted.push(next_admitted(f, limits, &admitted, count));
    }
    admitted
}

fn departed_of(f: &[u64], admitted: &[u64]) -> Vec<u64> {
    let up_to = |slot| next_departed(f, &admitted[..=slot]);
    (0..admitted.len()).map(up_to).collect()
}

fn permitted(
    f: &[u64],
    limits: Limits,
    arrivals: &[u64],
    admitted: &[u64],
    departed: &[u64],
) -> bool {
    let arrived = &totals(arrivals);
    let pair = Pair {
        admitted: admitted.to_vec(),
        departed: departed.to_vec(),
    };
    let f = &f.to_vec();
    Terms { f, limits, arrived }.permit(&pair)
}

#[test]
fn holding_the_last_entry_drops_all_of_slot_3() {
    let arrivals = [5, 0, 4, 0];
    let held_at_last = [0, 2, 3, 3, 3, 3];
    assert_eq!(
        admitted_under(&held_at_last, DELAY_1_BUFFER_9, &arrivals),
        [0, 3, 3, 3, 3]
    );
    let f = by_recursion(&[0, 2, 3], 5);
    assert_eq!(
        admitted_under(&f, DELAY_1_BUFFER_9, &arrivals),
        [0, 3, 3, 6, 6]
    );
}

#[test]
fn discarding_at_the_deadline_is_not_permitted() {
    let f = by_recursion(&[0, 2, 3], 5);
    let arrivals = [5, 0, 4, 0];
    let all_let_in = totals(&arrivals);
    let departed = [0, 2, 3, 5, 6];
    assert!(!permitted(
        &f,
        DELAY_1_BUFFER_9,
        &arrivals,
        &all_let_in,
        &departed
    ));
    assert!(permitted(
        &f,
        DELAY_1_BUFFER_9,
        &arrivals,
        &[0, 3, 3, 6, 6],
        &departed
    ));
}

#[test]
fn clipping_with_windows_up_to_the_last_lets_in_too_many() {
    let f = by_recursion(&[0, 2, 3], 5);
    let arrivals = [3, 2, 3, 0];
    let mut short_sighted: Vec<u64> = vec![0];
    for (before, count) in arrivals.iter().enumerate() {
        let slot = before + 1;
        let clipped = (slot.saturating_sub(2)..slot).filter_map(|s| {
            clip(&f, DELAY_1_BUFFER_9, slot - s).map(|most| short_sighted[s] + most)
        });
        let least = clipped.fold(short_sighted[before] + count, u64::min);
        short_sighted.push(least);
    }
    assert_eq!(short_sighted, [0, 3, 5, 8, 8]);
    let departed = departed_of(&f, &short_sighted);
    assert!(!permitted(
        &f,
        DELAY_1_BUFFER_9,
        &arrivals,
        &short_sighted,
        &departed
    ));

    let admitted = admitted_under(&f, DELAY_1_BUFFER_9, &arrivals);
    assert_eq!(admitted, [0, 3, 5, 6, 6]);
    let departed = departed_of(&f, &admitted);
    assert!(permitted(
        &f,
        DELAY_1_BUFFER_9,
        &arrivals,
        &admitted,
        &departed
    ));
}

#[test]
fn feeding_arrivals_to_the_regulator_lets_out_what_never_came_in() {
    let limits = Limits {
        delay: Some(0),
        ..DELAY_1_BUFFER_9
    };
    let f = by_recursion(&[0, 2, 3], 4);
    let arrivals = [5, 0, 4];
    let admitted = admitted_under(&f, limits, &arrivals);
    assert_eq!(admitted, [0, 2, 2, 4]);
    let fed_with_arrivals = departed_of(&f, &totals(&arrivals));
    assert_eq!(fed_with_arrivals, [0, 2, 3, 5]);
    assert!(!permitted(
        &f,
        limits,
        &arrivals,
        &admitted,
        &fed_with_arrivals
    ));
    assert!(permitted(
        &f,
        limits,
        &arrivals,
        &admitted,
        &departed_of(&f, &admitted)
    ));
}

/// The six-packet burst by the count of document 01, which document 02, 2.9, ends.
#[test]
fn counting_after_departures_fills_more_than_the_buffer() {
    let limits = Limits {
        delay: None,
        buffer: Some(4),
        count: Count::BeforeDepartures,
    };
    let f = by_recursion(&[0, 4, 8, 12, 16, 17, 18], 4);
    let arrivals = [6; 4];
    let after = admitted_under(&f, limits.counted(Count::AfterDepartures), &arrivals);
    assert_eq!(after, [0, 6, 12, 16, 20]);
    let departed = departed_of(&f, &after);
    assert!(!permitted(&f, limits, &arrivals, &after, &departed));
    let admitted = admitted_under(&f, limits, &arrivals);
    assert_eq!(admitted, [0, 4, 8, 12, 16]);
    let departed = departed_of(&f, &admitted);
    assert!(permitted(&f, limits, &arrivals, &admitted, &departed));
}
