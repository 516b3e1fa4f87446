//! A shared port in Rust: the packets that wait are counted by due slot and stream, in the order in
//! which they are sent, and by due slot alone, so that a slot passes over the due slots that have none.
//! Where there is room for all packets of a due slot, they are sent together.

use bezhantiru::PortLists;

use crate::quick::{Refused, too_many};

const MOST_STREAMS: usize = 8;
const MOST_SLOTS: usize = 256;
const MOST_DEADLINE: usize = 64;
const DUE_SLOTS: usize = MOST_SLOTS + MOST_DEADLINE + 1;

pub fn run(
    deadlines: &[u32],
    slots: u32,
    capacity: u32,
    input: &[u32],
    lists: PortLists<'_>,
) -> Result<(), Refused> {
    check(deadlines, slots, input, &lists)?;
    let PortLists { sent, late } = lists;
    let slots = slots as usize;
    let mut waiting = [[0_u32; MOST_STREAMS]; DUE_SLOTS];
    let mut totals = [0_u32; DUE_SLOTS];
    let nearest = deadlines
        .iter()
        .min()
        .map_or(0, |&deadline| deadline as usize);
    let furthest = deadlines
        .iter()
        .max()
        .map_or(0, |&deadline| deadline as usize);
    let mut first = usize::MAX;
    late.fill(0);
    for slot in 1..=slots {
        for (stream, &deadline) in deadlines.iter().enumerate() {
            let due = slot + deadline as usize;
            let comes = input[stream * slots + slot - 1];
            waiting[due][stream] = comes;
            totals[due] += comes;
        }
        let mut counts = [0; MOST_STREAMS];
        let mut room = capacity;
        let end = slot + furthest + 1;
        first = next_due(&totals, first.min(slot + nearest), end);
        while first < end {
            let (due, total) = (&mut waiting[first], &mut totals[first]);
            if *total > room {
                send_some(room, due, &mut counts);
                *total -= room;
                break;
            }
            room -= std::mem::take(total);
            for (count, left) in counts.iter_mut().zip(due) {
                *count += std::mem::take(left);
            }
            first = next_due(&totals, first + 1, end);
        }
        for (stream, late) in late.iter_mut().enumerate() {
            sent[stream * slots + slot - 1] = counts[stream];
            *late += waiting[slot][stream];
        }
    }
    Ok(())
}

/// The first due slot from one on that has packets, or the end.
fn next_due(totals: &[u32; DUE_SLOTS], first: usize, end: usize) -> usize {
    let found = totals[first..end].iter().position(|&total| total > 0);
    found.map_or(end, |passed| first + passed)
}

/// As many as there is room for, the lower stream first.
fn send_some(mut room: u32, due: &mut [u32; MOST_STREAMS], counts: &mut [u32; MOST_STREAMS]) {
    for (count, left) in counts.iter_mut().zip(due) {
        let sent_now = room.min(*left);
        room -= sent_now;
        *left -= sent_now;
        *count += sent_now;
    }
}

pub fn check(
    deadlines: &[u32],
    slots: u32,
    input: &[u32],
    lists: &PortLists<'_>,
) -> Result<(), Refused> {
    let streams = deadlines.len();
    if !(1..=MOST_STREAMS).contains(&streams) || slots as usize > MOST_SLOTS {
        return Err(21);
    }
    if deadlines
        .iter()
        .any(|&deadline| deadline as usize > MOST_DEADLINE)
    {
        return Err(22);
    }
    let counted = streams * slots as usize;
    if input.len() != counted || lists.sent.len() != counted || lists.late.len() != streams {
        return Err(11);
    }
    if too_many(input) {
        return Err(8);
    }
    Ok(())
}
