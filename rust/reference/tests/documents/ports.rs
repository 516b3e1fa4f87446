//! Document 02, 2.11: the shared port by hand, packet by packet, and beside every schedule of tiny
//! runs.

use reference::port::{Input, Lists, by_packets, run};
use reference::refusal::Refusal;

fn answered(port: Input<'_>) -> Lists {
    run(port, [port.input.len(), port.deadlines.len()]).expect("an accepted run")
}

/// Every list of so many numbers below a limit.
fn lists(length: u32, limit: u64) -> impl Iterator<Item = Vec<u64>> + Clone {
    let digit = move |code: u64, place: u32| code / limit.pow(place) % limit;
    (0..limit.pow(length)).map(move |code| (0..length).map(|place| digit(code, place)).collect())
}

/// Every run of these sizes, with deadlines and counts up to 2, for each of these capacities.
fn for_each_tiny(sizes: &[(u32, u32)], capacities: &[u64], check: impl Fn(Input<'_>)) {
    for &(streams, slots) in sizes {
        for deadlines in lists(streams, 3) {
            for input in lists(streams * slots, 3) {
                for &capacity in capacities {
                    check(Input {
                        deadlines: &deadlines,
                        slots: slots.into(),
                        capacity,
                        input: &input,
                    });
                }
            }
        }
    }
}

const SIZES: [(u32, u32); 9] = [
    (1, 0),
    (1, 1),
    (1, 5),
    (2, 0),
    (2, 1),
    (2, 2),
    (2, 3),
    (3, 1),
    (3, 2),
];

/// The two streams of `docs/PENCIL.md`, in both numberings.
#[test]
fn the_page_s_streams() {
    let port = Input {
        deadlines: &[2, 1],
        slots: 4,
        capacity: 2,
        input: &[2, 1, 0, 1, 1, 4, 1, 0],
    };
    let lists = answered(port);
    assert_eq!(lists.sent, [1, 1, 0, 1, 1, 1, 2, 1]);
    assert_eq!(lists.late, [0, 2]);
    assert_eq!(by_packets(port, [8, 2]), Ok(lists));
    let exchanged = answered(Input {
        deadlines: &[1, 2],
        input: &[1, 4, 1, 0, 2, 1, 0, 1],
        ..port
    });
    assert_eq!(exchanged.sent, [1, 2, 2, 1, 1, 0, 0, 1]);
    assert_eq!(exchanged.late, [0, 2]);
}

#[test]
fn counts_and_packets_give_the_same_lists() {
    for_each_tiny(&SIZES, &[0, 1, 2, 3, u32::MAX.into()], |port| {
        let lengths = [port.input.len(), port.deadlines.len()];
        assert_eq!(run(port, lengths), by_packets(port, lengths), "{port:?}");
    });
}

/// Document 000's example 3.4, and so nothing is sent before it comes, and no slot is idle while
/// packets wait: what was sent by slot t is the least of what came by s and the capacity of s+1 to t.
#[test]
fn no_slot_is_idle_while_packets_wait() {
    for_each_tiny(&SIZES, &[0, 1, 2, 3], |port| {
        let lists = answered(port);
        let slots = port.slots as usize;
        let by = |counts: &[u64], slot: usize| -> u64 {
            let stream = |counts: &[u64]| counts[..slot].iter().sum::<u64>();
            counts.chunks(slots.max(1)).map(stream).sum()
        };
        for t in 0..=slots {
            let bounds = (0..=t).map(|s| by(port.input, s) + port.capacity * (t - s) as u64);
            assert_eq!(Some(by(&lists.sent, t)), bounds.min(), "{port:?}");
        }
    });
}

/// Where some schedule meets all deadlines that fall in the run, this one does; late counts that are
/// all 0 say just that, and so does theorem 7.1.
#[test]
fn deadlines_that_can_be_met_are_met() {
    for_each_tiny(&SIZES, &[0, 1, 2, 3], |port| {
        let lists = answered(port);
        let met = port.met_by(&lists.sent);
        assert_eq!(met, port.can_be_met(), "{port:?}");
        assert_eq!(met, lists.late.iter().all(|&count| count == 0), "{port:?}");
        assert_eq!(met, port.fits(), "{port:?}");
    });
}

/// Every order of some numbers.
fn orders(numbers: &[usize]) -> Vec<Vec<usize>> {
    if numbers.is_empty() {
        return vec![Vec::new()];
    }
    let with_last = |place: usize| {
        let mut others = numbers.to_vec();
        let last = others.remove(place);
        orders(&others).into_iter().map(move |mut order| {
            order.push(last);
            order
        })
    };
    (0..numbers.len()).flat_map(with_last).collect()
}

/// The late packets of all streams together do not depend on how the streams are numbered.
#[test]
fn late_packets_in_all_do_not_depend_on_the_numbering() {
    for_each_tiny(
        &[(2, 1), (2, 2), (2, 3), (3, 1), (3, 2)],
        &[0, 1, 2],
        |port| {
            let slots = port.slots as usize;
            let late = |lists: &Lists| lists.late.iter().sum::<u64>();
            let wanted = late(&answered(port));
            let streams: Vec<usize> = (0..port.deadlines.len()).collect();
            for order in orders(&streams) {
                let deadlines: Vec<u64> = order.iter().map(|&i| port.deadlines[i]).collect();
                let chunk = |&i: &usize| port.input[i * slots..(i + 1) * slots].to_vec();
                let input: Vec<u64> = order.iter().flat_map(chunk).collect();
                let other = Input {
                    deadlines: &deadlines,
                    input: &input,
                    ..port
                };
                assert_eq!(late(&answered(other)), wanted, "{port:?}, {order:?}");
            }
        },
    );
}

#[test]
fn nothing_is_sent_without_capacity() {
    let port = Input {
        deadlines: &[0, 64],
        slots: 2,
        capacity: 0,
        input: &[1, 2, 3, 4],
    };
    let lists = answered(port);
    assert_eq!((lists.sent, lists.late), (vec![0; 4], vec![3, 0]));
}

#[test]
fn a_run_without_slots_has_no_late_packets() {
    let port = Input {
        deadlines: &[0; 8],
        slots: 0,
        capacity: 1,
        input: &[],
    };
    let lists = answered(port);
    assert_eq!((lists.sent, lists.late), (vec![], vec![0; 8]));
}

fn number(deadlines: &[u64], slots: u64, input: &[u64], lengths: [usize; 2]) -> u8 {
    let port = Input {
        deadlines,
        slots,
        capacity: 1,
        input,
    };
    run(port, lengths).map_or_else(Refusal::number, |_| 0)
}

#[test]
fn refusals_in_their_order() {
    let large = [1_000_001; 600];
    assert_eq!(number(&[], 1, &large, [0; 2]), 21);
    assert_eq!(number(&[65; 9], 1, &large, [0; 2]), 21);
    assert_eq!(number(&[65], 257, &large, [0; 2]), 21);
    assert_eq!(number(&[65], u32::MAX.into(), &large, [0; 2]), 21);
    assert_eq!(number(&[64, 65], 256, &large, [0; 2]), 22);
    for (input, sent, late) in [
        (1, 2, 2),
        (3, 2, 2),
        (2, 1, 2),
        (2, 3, 2),
        (2, 2, 1),
        (2, 2, 3),
    ] {
        assert_eq!(number(&[64, 0], 1, &large[..input], [sent, late]), 11);
    }
    assert_eq!(number(&[64, 0], 1, &[0, 1_000_001], [2, 2]), 8);
    assert_eq!(number(&[64, 0], 1, &[0, 1_000_000], [2, 2]), 0);
    assert_eq!(number(&[64; 8], 256, &[0; 2_048], [2_048, 8]), 0);
    assert_eq!(number(&[0], 0, &[], [0, 1]), 0);
}
