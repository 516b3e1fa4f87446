//! What is printed, beside the reference and the samples' certificates.

use std::sync::atomic::{AtomicUsize, Ordering};

use commands::certificate::Certificate;
use reference::closure::by_recursion;
use reference::layout::{NO_BUFFER, NO_DELAY, StreamFile};
use reference::permitted::{Terms, totals};
use reference::refusal::Refusal;
use reference::regulator::Limits;
use reference::{certificate, stream, trace};
use tests_program::cases::{for_each_drawn, for_each_numbered, said, same, wide};
use tests_program::dice::Dice;
use tests_program::samples::{ACCEPTED, bytes};
use tests_program::{damage, draw};

const FILES: usize = 10_000;
const LONG_FILES: usize = 4;
const TINY_FILES: usize = 3_000;
const MARKS: [&str; 4] = ["", "arrivals", "delay", "buffer"];

/// What the reference would print for a file.
fn wanted(file: &[u8]) -> Result<String, Refusal> {
    let stream = stream::read(file)?;
    let (table, delay, buffer) = (&stream.table, stream.delay, stream.buffer);
    let lengths = [stream.arrivals.len(); 3];
    let ours = trace::run(table, delay, buffer, &stream.arrivals, lengths)?;
    let links = certificate::find(table, delay, buffer, &stream.arrivals, lengths)?;
    let (u, v) = (totals(&ours.admitted), totals(&ours.departed));
    let mut text = String::from("slot admitted from by amount departed from amount\n");
    for slot in 1..u.len() {
        let (first, mark) = (links.admitted_from[slot - 1], links.admitted_by[slot - 1]);
        let admitted = match mark {
            0 => String::from("- - -"),
            _ => {
                let (word, amount) = (MARKS[mark as usize], u[slot] - u[first as usize]);
                format!("{first} {word} {amount}")
            }
        };
        let first = links.departed_from[slot - 1];
        let departed = format!("{} {first} {}", v[slot], v[slot] - u[first as usize]);
        text += &format!("{slot} {} {admitted} {departed}\n", u[slot]);
    }
    let slots = u.len() - 1;
    let counted = (1..=slots).filter(|&slot| leads_back(&links, slot)).count();
    Ok(text + &format!("certified {counted} of {slots} slots\n"))
}

/// Whether a slot's admitted links lead back to slot 0, link by link.
fn leads_back(links: &certificate::Certificate, mut slot: usize) -> bool {
    while slot > 0 {
        if links.admitted_by[slot - 1] == 0 {
            return false;
        }
        slot = links.admitted_from[slot - 1] as usize;
    }
    true
}

fn check(file: &[u8]) -> Result<(), String> {
    let found = Certificate::of_file(file).map(|found| found.to_string());
    let found = found.map_err(|refusal| refusal.number());
    let wanted = wanted(file).map_err(|refusal| u32::from(refusal.number()));
    same(&format!("{file:02x?}"), found, wanted)
}

fn printed(file: &StreamFile) -> String {
    let found = Certificate::of_file(&file.to_bytes());
    found.expect("an accepted file").to_string()
}

#[test]
fn samples() {
    for name in ACCEPTED {
        let found = Certificate::of_file(&bytes(name, "stream")).expect("an accepted file");
        let stored = String::from_utf8_lossy(&bytes(name, "certificate")).into_owned();
        assert_eq!(found.to_string(), stored, "{name}");
    }
    for (name, number) in [("no-limits", 23), ("refused", 6)] {
        let found = Certificate::of_file(&bytes(name, "stream"));
        assert_eq!(found.map_err(|refusal| refusal.number()), Err(number));
    }
}

#[test]
fn drawn_files() {
    for_each_numbered(FILES, |number, dice| check(&damage::file(number, dice)));
}

#[test]
fn long_files() {
    for_each_drawn(LONG_FILES, |dice| {
        check(&draw::stream(dice, 1, 64, 600, 1_000).to_bytes())
    });
}

#[test]
fn a_stream_of_no_slots() {
    let empty = StreamFile::of_arrivals(&[0, 1], (0, 1), &[]);
    assert_eq!(
        printed(&empty),
        "slot admitted from by amount departed from amount\ncertified 0 of 0 slots\n"
    );
}

/// Table 0,1 and d 2, four packets in slot 1: the deadline of slot 1 lies beyond two slots, and the
/// pair 4,0 / 1,1 is permitted. Slot 2 has a link from slot 1, which has none.
#[test]
fn a_link_from_a_slot_without_one_does_not_count() {
    let short = StreamFile::of_arrivals(&[0, 1], (2, NO_BUFFER), &[4, 0]);
    assert_eq!(
        printed(&short),
        "slot admitted from by amount departed from amount
1 3 - - - 1 0 1
2 3 1 arrivals 0 2 0 2
certified 0 of 2 slots
"
    );
    let longer = StreamFile::of_arrivals(&[0, 1], (2, NO_BUFFER), &[4, 0, 0]);
    assert_eq!(
        printed(&longer),
        "slot admitted from by amount departed from amount
1 3 0 delay 3 1 0 1
2 3 1 arrivals 0 2 0 2
3 3 1 arrivals 0 3 0 3
certified 3 of 3 slots
"
    );
    let nothing = StreamFile::of_arrivals(&[0, 1], (NO_DELAY, 0), &[4, 0]);
    assert_eq!(
        printed(&nothing),
        "slot admitted from by amount departed from amount
1 0 0 buffer 0 0 1 0
2 0 1 arrivals 0 0 2 0
certified 2 of 2 slots
"
    );
}

/// A stream of up to four slots with few packets.
fn tiny(dice: &mut Dice) -> StreamFile {
    let mut table = vec![0];
    for _ in 0..dice.between(1, 3) {
        table.push(table[table.len() - 1] + dice.below(3));
    }
    let delay = dice.pick([0, 1, 1, 2, 2, 3, NO_DELAY]);
    let some = dice.below(5);
    let none = if delay == NO_DELAY { some } else { NO_BUFFER };
    let slots = dice.below(5);
    let arrivals: Vec<u32> = (0..slots).map(|_| dice.below(4)).collect();
    StreamFile::of_arrivals(&table, (delay, dice.pick([some, none])), &arrivals)
}

/// By a search through all permitted pairs: none has admitted more by a slot that counts. By slots
/// whose link starts from one that does not count some have.
#[test]
fn slots_that_count_are_lowest() {
    let (counted, better) = (AtomicUsize::new(0), AtomicUsize::new(0));
    for_each_drawn(TINY_FILES, |dice| {
        let file = tiny(dice);
        let (delay, buffer) = (file.header.delay.into(), file.header.buffer.into());
        let arrivals = wide(&file.arrivals());
        let terms = Terms {
            f: &by_recursion(&wide(&file.table), arrivals.len()),
            limits: said(Limits::from_numbers(delay, buffer))?,
            arrived: &totals(&arrivals),
        };
        let greatest = terms.greatest().admitted;
        let slots = said(Certificate::of_file(&file.to_bytes()))?.slots;
        let mut counts = vec![true];
        for (number, slot) in (1..).zip(&slots) {
            let link = slot.admitted_link;
            let count = link.is_some_and(|link| counts[link.first as usize]);
            counts.push(count);
            if count {
                counted.fetch_add(1, Ordering::Relaxed);
                let case = |problem| format!("{file:?}, slot {number}: {problem}");
                same("admitted", slot.admitted, greatest[number]).map_err(case)?;
            } else if link.is_some() && slot.admitted < greatest[number] {
                better.fetch_add(1, Ordering::Relaxed);
            }
        }
        Ok(())
    });
    let (counted, better) = (counted.into_inner(), better.into_inner());
    println!("{counted} slots count, by {better} others with a link somebody has admitted more");
    assert!(counted > TINY_FILES && better > TINY_FILES / 100);
}
