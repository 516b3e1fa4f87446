//! The table that `examples/run` of the repository compares the example `shared_port` with is the
//! reference's: bella's and delay-only's departures, both due a slot after they come, at a port that
//! sends six packets a slot.

use std::fs;

use reference::port::{Input, run};
use reference::{stream, trace};
use tests_program::samples::bytes;
use tests_program::stage::repository;

/// The packets that depart from a sample's regulator in so many slots.
fn departed(name: &str, slots: usize) -> Vec<u64> {
    let mut sample = stream::read(&bytes(name, "stream")).expect("an accepted sample");
    sample.arrivals.resize(slots, 0);
    let rows = trace::rows(&sample).expect("an accepted sample");
    rows.iter().map(|row| row.departed).collect()
}

#[test]
fn the_example_s_table() {
    let slots = 42;
    let (bella, delay_only) = (departed("bella", slots), departed("delay-only", slots));
    let port = Input {
        deadlines: &[1, 1],
        slots: slots as u64,
        capacity: 6,
        input: &[&bella[..], &delay_only].concat(),
    };
    let lists = run(port, [2 * slots, 2]).expect("an accepted run");
    let mut table = String::from("slot came sent came sent waiting\n");
    let mut waiting = 0;
    for slot in 0..slots {
        let came = [bella[slot], delay_only[slot]];
        let sent = [lists.sent[slot], lists.sent[slots + slot]];
        waiting += came[0] + came[1] - sent[0] - sent[1];
        let [[a, b], [c, d]] = [[came[0], sent[0]], [came[1], sent[1]]];
        table += &format!("{} {a} {b} {c} {d} {waiting}\n", slot + 1);
    }
    table += &format!("late {} {}\n", lists.late[0], lists.late[1]);
    assert!(lists.late.iter().all(|&count| count > 0), "{table}");
    let stored = fs::read_to_string(repository("examples/shared_port.table"));
    assert_eq!(stored.expect("the table"), table);
}
