//! Beside the reference, on drawn streams and rows.

use std::sync::atomic::{AtomicUsize, Ordering};

use commands::rows::Rows;
use reference::judge::{Broken, Rule, judge};
use reference::layout::{NO_BUFFER, NO_DELAY, StreamFile};
use reference::permitted::{premise, totals};
use reference::refusal::Refusal;
use reference::regulator::Limits;
use reference::trace;
use tests_program::cases::{for_each_numbered, said, same, wide};
use tests_program::dice::Dice;
use tests_program::draw;

use super::program::{Beside, Breach, Losses, Unseen};

const DRAWN: usize = 20_000;

/// The numbers of a broken rule, from the totals U and V.
fn breach(broken: Broken, file: &StreamFile, rows: &Rows) -> Breach {
    let (slot, window) = (broken.slot, broken.window);
    let [u, v] = [&rows.admitted, &rows.departed].map(|list| totals(&wide(list)));
    match broken.rule {
        Rule::Arrivals => Breach::Arrivals {
            slot,
            admitted: u[slot] - u[slot - 1],
            arrived: wide(&file.arrivals())[slot - 1],
        },
        Rule::Departures => Breach::Departures {
            slot,
            departed: v[slot],
            admitted: u[slot],
        },
        Rule::Envelope => Breach::Envelope {
            first: slot - window + 1,
            last: slot,
            departed: v[slot] - v[slot - window],
            may: wide(&file.table)[window],
        },
        Rule::Buffer => Breach::Buffer {
            slot,
            fill: u[slot] - v[slot - 1],
            may: file.header.buffer.into(),
        },
        Rule::Delay => {
            let admitted_by = slot - file.header.delay as usize;
            Breach::Delay {
                admitted_by,
                due_by: slot,
                admitted: u[admitted_by],
                departed: v[slot],
            }
        }
    }
}

/// Arrived less admitted, slot by slot.
fn lost(arrived: &[u64], admitted: &[u64]) -> Vec<i64> {
    let [arrived, admitted] = [arrived, admitted].map(totals);
    let slots = arrived.into_iter().zip(admitted);
    slots.map(|(a, u)| a as i64 - u as i64).collect()
}

fn wanted(file: &StreamFile, rows: &Rows) -> Result<Beside, Refusal> {
    let (table, arrivals) = (wide(&file.table), wide(&file.arrivals()));
    let (delay, buffer) = (file.header.delay.into(), file.header.buffer.into());
    let (admitted, departed) = (wide(&rows.admitted), wide(&rows.departed));
    let broken = judge(&table, delay, buffer, &arrivals, &admitted, &departed)?;
    let ours = trace::run(&table, delay, buffer, &arrivals, [arrivals.len(); 3])?;
    let limits = Limits::from_numbers(delay, buffer)?;
    let unseen = limits.delay.filter(|_| !premise(limits, &arrivals));
    Ok(Beside {
        breach: broken.map(|broken| breach(broken, file, rows)),
        losses: Losses {
            ours: lost(&arrivals, &ours.admitted),
            theirs: lost(&arrivals, &admitted),
        },
        unseen: unseen.map(|delay| Unseen {
            delay,
            last_seen: arrivals.len().saturating_sub(delay),
        }),
    })
}

/// Ours, with some numbers one off or far off.
fn rows(file: &StreamFile, dice: &mut Dice) -> Result<Rows, String> {
    let (table, arrivals) = (wide(&file.table), wide(&file.arrivals()));
    let (delay, buffer) = (file.header.delay.into(), file.header.buffer.into());
    let ours = trace::run(&table, delay, buffer, &arrivals, [arrivals.len(); 3]);
    let ours = said(ours)?;
    let narrow = |list: Vec<u64>| list.into_iter().map(|count| count as u32).collect();
    let mut rows = Rows {
        admitted: narrow(ours.admitted),
        departed: narrow(ours.departed),
    };
    for _ in 0..dice.below(4).min(arrivals.len() as u32) {
        let slot = dice.place(arrivals.len());
        let list = if dice.below(2) == 0 {
            &mut rows.admitted
        } else {
            &mut rows.departed
        };
        let count = list[slot];
        let (less, more) = (count.saturating_sub(1), count.saturating_add(1));
        list[slot] = dice.pick([less, less, less, more, 0, u32::MAX]);
    }
    Ok(rows)
}

#[test]
fn drawn_rows() {
    let (permitted, unseen) = (AtomicUsize::new(0), AtomicUsize::new(0));
    for_each_numbered(DRAWN, |_, dice| {
        let file = draw::any(dice);
        let rows = rows(&file, dice)?;
        let found = said(Beside::of(&file, &rows))?;
        let case = |problem| format!("{file:?}, {rows:?}: {problem}");
        same("beside", &found, &said(wanted(&file, &rows))?).map_err(case)?;
        if found.breach.is_none() {
            permitted.fetch_add(1, Ordering::Relaxed);
            unseen.fetch_add(usize::from(found.unseen.is_some()), Ordering::Relaxed);
        }
        Ok(())
    });
    let (permitted, unseen) = (permitted.into_inner(), unseen.into_inner());
    println!("{permitted} of {DRAWN} permitted, {unseen} of them without the premises");
    assert!(permitted > DRAWN / 4 && unseen > DRAWN / 10);
}

#[test]
fn both_limits_none_are_refused() {
    for_each_numbered(20, |_, dice| {
        let mut file = draw::any(dice);
        let rows = rows(&file, dice)?;
        file.header.delay = NO_DELAY;
        file.header.buffer = NO_BUFFER;
        let found = Beside::of(&file, &rows).map_err(|refusal| refusal.number());
        same("number", found.err(), Some(23))
    });
}
