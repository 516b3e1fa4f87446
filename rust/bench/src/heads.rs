//! A shared port in Rust whose work does not grow with the deadlines: each stream is a FIFO of its
//! slots, whose head is known by its due slot and stream in one number; the least of eight such numbers
//! is sent next. A slot before which nothing waits and which has room for all sends what comes.

use bezhantiru::PortLists;

use crate::places::check;
use crate::quick::Refused;

const STREAMS: usize = 8;
/// No packet waits.
const NONE: u32 = u32::MAX;

/// The streams' heads.
struct Heads {
    /// Due slot × 8 + stream, or none.
    keys: [u32; STREAMS],
    /// The slot in which the head came, from 0 on, and how many packets it has left.
    slots: [usize; STREAMS],
    left: [u32; STREAMS],
}

pub fn run(
    deadlines: &[u32],
    slots: u32,
    capacity: u32,
    input: &[u32],
    lists: PortLists<'_>,
) -> Result<(), Refused> {
    check(deadlines, slots, input, &lists)?;
    let PortLists { sent, late } = lists;
    late.fill(0);
    sent.fill(0);
    let slots = slots as usize;
    let mut heads = Heads {
        keys: [NONE; STREAMS],
        slots: [0; STREAMS],
        left: [0; STREAMS],
    };
    let mut waits = false;
    for slot in 0..slots {
        let in_slot = || (slot..input.len()).step_by(slots);
        let came: u64 = in_slot().map(|place| u64::from(input[place])).sum();
        if !waits && came <= u64::from(capacity) {
            for place in in_slot() {
                sent[place] = input[place];
            }
            continue;
        }
        for (stream, place) in in_slot().enumerate() {
            if heads.keys[stream] == NONE && input[place] > 0 {
                heads.set(stream, slot, deadlines[stream], input[place]);
            }
        }
        let mut room = capacity;
        let mut least = heads.least();
        while room > 0 && least != NONE {
            let (stream, due) = ((least % 8) as usize, (least / 8) as usize);
            let sent_now = room.min(heads.left[stream]);
            room -= sent_now;
            heads.left[stream] -= sent_now;
            sent[stream * slots + slot] += sent_now;
            if slot > due {
                late[stream] += sent_now;
            }
            if heads.left[stream] == 0 {
                let own = &input[stream * slots..=stream * slots + slot];
                let next = (heads.slots[stream] + 1..=slot).find(|&next| own[next] > 0);
                match next {
                    Some(next) => heads.set(stream, next, deadlines[stream], own[next]),
                    None => heads.keys[stream] = NONE,
                }
            }
            least = heads.least();
        }
        waits = least != NONE;
    }
    heads.end(deadlines, slots, input, late);
    Ok(())
}

impl Heads {
    #[inline(always)]
    fn set(&mut self, stream: usize, slot: usize, deadline: u32, packets: u32) {
        self.keys[stream] = (slot as u32 + deadline) * 8 + stream as u32;
        self.slots[stream] = slot;
        self.left[stream] = packets;
    }

    #[inline(always)]
    fn least(&self) -> u32 {
        self.keys.into_iter().fold(NONE, u32::min)
    }

    /// Packets unsent at the end whose due slot lies in the run.
    fn end(&self, deadlines: &[u32], slots: usize, input: &[u32], late: &mut [u32]) {
        for (stream, late) in late.iter_mut().enumerate() {
            if self.keys[stream] != NONE {
                let due_in_run = slots.saturating_sub(deadlines[stream] as usize);
                if self.slots[stream] < due_in_run {
                    *late += self.left[stream];
                    let own = &input[stream * slots..(stream + 1) * slots];
                    *late += own[self.slots[stream] + 1..due_in_run].iter().sum::<u32>();
                }
            }
        }
    }
}
