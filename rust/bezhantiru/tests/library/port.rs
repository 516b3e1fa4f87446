//! Document 02, 2.11: the shared port beside the reference, packet by packet and by counts, beside a
//! search through all schedules of tiny runs, and in every numbering of the streams.

use std::sync::atomic::{AtomicUsize, Ordering};
use std::thread;

use reference::port::by_packets;
use tests_program::cases::{for_each_drawn, said, same};
use tests_program::dice::{Dice, seed};
use tests_program::port::{self, Drawn};

use crate::shared::{accepted, run};

const RUNS: usize = 20_000;
const LONG_RUNS: usize = 200;

/// The problem with the run that it arose in.
fn in_run(drawn: &Drawn, outcome: Result<(), String>) -> Result<(), String> {
    outcome.map_err(|problem| format!("{problem}\n{drawn:?}"))
}

/// The library's lists, which are the reference's.
fn check_lists(drawn: &Drawn) -> Result<[Vec<u32>; 2], String> {
    let found = run(drawn, drawn.list_lengths());
    let wanted = accepted(said(drawn.lists())?);
    in_run(drawn, same("lists", &found, &wanted))?;
    Ok(found.lists)
}

#[test]
fn runs() {
    for_each_drawn(RUNS, |dice| check_lists(&port::any(dice)).map(|_| ()));
}

#[test]
fn long_runs() {
    for_each_drawn(LONG_RUNS, |dice| {
        check_lists(&port::port(dice, 256)).map(|_| ())
    });
}

/// Few packets, each of them followed on its own.
#[test]
fn packet_by_packet() {
    for_each_drawn(RUNS, |dice| {
        let mut drawn = port::any(dice);
        for count in &mut drawn.input {
            *count %= 5;
        }
        drawn.capacity %= 20;
        let wanted = drawn.as_input(|input| by_packets(input, drawn.list_lengths()));
        let found = run(&drawn, drawn.list_lengths());
        in_run(&drawn, same("lists", found, accepted(said(wanted)?)))
    });
}

/// Few enough packets for a search; in a third of the runs too many for their deadlines.
fn tiny(dice: &mut Dice) -> Drawn {
    let streams = dice.between(1, 3);
    let slots = if streams == 3 {
        dice.pick([0, 1, 2, 3, 3])
    } else {
        dice.pick([0, 2, 3, 4, 4])
    };
    Drawn {
        deadlines: (0..streams).map(|_| dice.below(3)).collect(),
        slots,
        capacity: dice.pick([0, 1, 1, 2, 2, 3]),
        input: (0..streams * slots).map(|_| dice.below(3)).collect(),
    }
}

/// Where some schedule meets all deadlines that fall in the run, the port's does, and exactly then no
/// packet is late.
#[test]
fn deadlines_that_can_be_met_are_met() {
    let met = AtomicUsize::new(0);
    for_each_drawn(RUNS, |dice| {
        let drawn = tiny(dice);
        let [sent, late] = check_lists(&drawn)?;
        let sent: Vec<u64> = sent.into_iter().map(u64::from).collect();
        let (can_be, is) = drawn.as_input(|input| (input.can_be_met(), input.met_by(&sent)));
        let none_late = late.iter().all(|&count| count == 0);
        in_run(&drawn, same("met", (is, none_late), (can_be, can_be)))?;
        met.fetch_add(usize::from(is), Ordering::Relaxed);
        Ok(())
    });
    let met = met.into_inner();
    println!("{met} of {RUNS} meet all deadlines");
    assert!((RUNS / 5..RUNS / 5 * 4).contains(&met), "{met}");
}

/// The streams in another order.
fn renumbered(drawn: &Drawn, dice: &mut Dice) -> Drawn {
    let slots = drawn.slots as usize;
    let mut places: Vec<usize> = (0..drawn.deadlines.len()).collect();
    let mut order = Vec::new();
    while !places.is_empty() {
        order.push(places.remove(dice.place(places.len())));
    }
    let counts = |&stream: &usize| &drawn.input[stream * slots..(stream + 1) * slots];
    Drawn {
        deadlines: order
            .iter()
            .map(|&stream| drawn.deadlines[stream])
            .collect(),
        input: order.iter().flat_map(counts).copied().collect(),
        ..drawn.clone()
    }
}

/// What does not depend on the numbering: packets sent in each slot, and late ones, of all streams.
fn in_all(drawn: &Drawn, [sent, late]: &[Vec<u32>; 2]) -> (Vec<u64>, u64) {
    let sum = |counts: &mut dyn Iterator<Item = &u32>| counts.copied().map(u64::from).sum::<u64>();
    let slots = drawn.slots as usize;
    let in_slot = |slot: usize| sum(&mut sent.iter().skip(slot).step_by(slots));
    ((0..slots).map(in_slot).collect(), sum(&mut late.iter()))
}

#[test]
fn streams_in_another_order() {
    let other_late = AtomicUsize::new(0);
    for_each_drawn(RUNS, |dice| {
        let drawn = port::any(dice);
        let lists = check_lists(&drawn)?;
        let other = renumbered(&drawn, dice);
        let others = check_lists(&other)?;
        let checked = same("in all", in_all(&other, &others), in_all(&drawn, &lists));
        in_run(&drawn, checked)?;
        let sorted = |[_, late]: &[Vec<u32>; 2]| {
            let mut late = late.clone();
            late.sort();
            late
        };
        other_late.fetch_add(
            usize::from(sorted(&others) != sorted(&lists)),
            Ordering::Relaxed,
        );
        Ok(())
    });
    let other_late = other_late.into_inner();
    println!("{other_late} of {RUNS} with other late counts");
    assert!(other_late > 1_000, "{other_late}");
}

/// Every stream full in every slot: the greatest counts that 32 bits have to hold.
#[test]
fn full_runs() {
    let mixed: Vec<u32> = vec![64, 0, 3, 64, 17, 0, 63, 1];
    for deadlines in [vec![0; 8], vec![64; 8], mixed] {
        for capacity in [
            0,
            1,
            999_999,
            1_000_000,
            7_999_999,
            8_000_000,
            8_000_001,
            u32::MAX,
        ] {
            let drawn = Drawn {
                deadlines: deadlines.clone(),
                slots: 256,
                capacity,
                input: vec![1_000_000; 8 * 256],
            };
            let lists = check_lists(&drawn).unwrap_or_else(|problem| panic!("{problem}"));
            if capacity == 0 {
                let due = |&deadline: &u32| (256 - deadline) * 1_000_000;
                let late: Vec<u32> = deadlines.iter().map(due).collect();
                assert_eq!(lists, [vec![0; 8 * 256], late]);
            }
            if capacity >= 8_000_000 {
                assert_eq!(lists, [drawn.input, vec![0; 8]]);
            }
        }
    }
}

/// A run of 0 slots writes the late counts.
#[test]
fn runs_without_slots() {
    for streams in 1..=8 {
        for (deadline, capacity) in [(0, 0), (64, 1), (0, u32::MAX)] {
            let drawn = Drawn {
                deadlines: vec![deadline; streams],
                slots: 0,
                capacity,
                input: vec![],
            };
            let lists = check_lists(&drawn).unwrap_or_else(|problem| panic!("{problem}"));
            assert_eq!(lists, [vec![], vec![0; streams]]);
        }
    }
}

/// The stack that the header speaks of is enough; too small a one would end the whole test.
#[test]
fn the_header_s_stack() {
    let drawn = port::port(&mut Dice::new(1, 1), 256);
    let small = thread::Builder::new().stack_size(1 << 16);
    let found = small.spawn(move || run(&drawn, drawn.list_lengths()).outcome);
    let found = found.expect("a thread").join().expect("an answer");
    assert_eq!(found, Ok(()));
}

/// Whether packets are late, whether some packet waits although nothing is late, whether some slot has
/// more room than packets, and whether streams of unlike deadlines meet.
fn kinds(drawn: &Drawn) -> [bool; 4] {
    let lists = drawn.lists().expect("an accepted run");
    let slots = drawn.slots as usize;
    let late = lists.late.iter().any(|&count| count > 0);
    let waits = lists
        .sent
        .iter()
        .zip(&drawn.input)
        .any(|(&sent, &came)| sent != came.into());
    let in_slot = |slot: usize| lists.sent.iter().skip(slot).step_by(slots).sum::<u64>();
    let idle = (0..slots).any(|slot| in_slot(slot) < drawn.capacity.into());
    let alike = drawn
        .deadlines
        .iter()
        .all(|&deadline| deadline == drawn.deadlines[0]);
    [late, waits && !late, idle && waits, late && !alike]
}

#[test]
fn every_kind_of_run_is_drawn() {
    let seed = seed().unwrap_or_else(|problem| panic!("{problem}"));
    let mut by_kind = [0; 4];
    for number in 0..RUNS as u64 {
        let drawn = port::any(&mut Dice::new(seed, number));
        for (count, is) in by_kind.iter_mut().zip(kinds(&drawn)) {
            *count += usize::from(is);
        }
    }
    println!("SEED={seed} {by_kind:?}");
    assert!(by_kind.iter().all(|&count| count >= 1_000), "{by_kind:?}");
}
