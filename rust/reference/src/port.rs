//! A shared port above the regulators, twice: packet by packet, and by counts for runs of any size.
//! Document 02, 2.11.

use crate::refusal::{self, Refusal};

/// What an accepted run fills the two lent lists with.
#[derive(Clone, Debug, PartialEq, Eq)]
pub struct Lists {
    /// The packets sent in each slot, stream after stream as the input lies.
    pub sent: Vec<u64>,
    /// One late count a stream.
    pub late: Vec<u64>,
}

/// What a port is given: a deadline for each stream, the slots of the run, the most packets that it
/// sends in a slot, and the packets of each slot, stream after stream.
#[derive(Clone, Copy, Debug)]
pub struct Input<'a> {
    pub deadlines: &'a [u64],
    pub slots: u64,
    pub capacity: u64,
    pub input: &'a [u64],
}

impl Input<'_> {
    /// The packets of a stream that come in a slot, counted from 1.
    pub fn arrivals(&self, stream: usize, slot: usize) -> u64 {
        self.input[self.place(stream, slot)]
    }

    fn place(&self, stream: usize, slot: usize) -> usize {
        stream * self.slots as usize + slot - 1
    }

    /// A packet that comes in slot t is due by t + D, D being its stream's deadline.
    fn due(&self, stream: usize, slot: usize) -> usize {
        slot + self.deadlines[stream] as usize
    }

    fn streams(&self) -> std::ops::Range<usize> {
        0..self.deadlines.len()
    }

    fn last_slot(&self) -> usize {
        self.slots as usize
    }

    fn nothing_sent(&self) -> Lists {
        Lists {
            sent: vec![0; self.input.len()],
            late: vec![0; self.deadlines.len()],
        }
    }

    /// The first refusal of 21, 22, 11, 8.
    fn check(&self, list_lengths: [usize; 2]) -> Result<(), Refusal> {
        refusal::port(self.deadlines, self.slots, self.input, list_lengths)
    }
}

/// One packet that waits. The order is the port's: the earliest due first, the lower stream first among
/// equals.
#[derive(Clone, Copy, PartialEq, Eq, PartialOrd, Ord)]
struct Packet {
    due: usize,
    stream: usize,
}

/// The two lists, packet by packet, or the first refusal; for few packets. `list_lengths` are the
/// lengths of the lent lists for sent packets and late counts.
pub fn by_packets(port: Input<'_>, list_lengths: [usize; 2]) -> Result<Lists, Refusal> {
    port.check(list_lengths)?;
    let mut lists = port.nothing_sent();
    let mut waiting = Vec::new();
    for slot in 1..=port.last_slot() {
        for stream in port.streams() {
            let due = port.due(stream, slot);
            let packet = Packet { due, stream };
            waiting.extend((0..port.arrivals(stream, slot)).map(|_| packet));
        }
        waiting.sort();
        // Fewer than the capacity only if nothing is then left waiting.
        let sent_now = (waiting.len() as u64).min(port.capacity) as usize;
        for packet in waiting.drain(..sent_now) {
            lists.sent[port.place(packet.stream, slot)] += 1;
            lists.late[packet.stream] += u64::from(slot > packet.due);
        }
    }
    for packet in waiting {
        lists.late[packet.stream] += u64::from(packet.due <= port.last_slot());
    }
    Ok(lists)
}

/// The same for any number of packets: those of one stream that came in one slot are sent together, as
/// far as there is room.
pub fn run(port: Input<'_>, list_lengths: [usize; 2]) -> Result<Lists, Refusal> {
    port.check(list_lengths)?;
    let mut lists = port.nothing_sent();
    let mut waiting: Vec<(Packet, u64)> = Vec::new();
    for slot in 1..=port.last_slot() {
        for stream in port.streams() {
            let due = port.due(stream, slot);
            waiting.push((Packet { due, stream }, port.arrivals(stream, slot)));
        }
        waiting.sort();
        let mut room = port.capacity;
        for (packet, count) in &mut waiting {
            let sent_now = room.min(*count);
            room -= sent_now;
            *count -= sent_now;
            lists.sent[port.place(packet.stream, slot)] += sent_now;
            if slot > packet.due {
                lists.late[packet.stream] += sent_now;
            }
        }
        waiting.retain(|(_, count)| *count > 0);
    }
    for (packet, count) in waiting {
        if packet.due <= port.last_slot() {
            lists.late[packet.stream] += count;
        }
    }
    Ok(lists)
}
