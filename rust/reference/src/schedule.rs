//! Schedules of a port, chosen with all input known in advance: a search through all of them, and the
//! condition of document 000's theorem 7.1. Document 02, 2.11.

use crate::port::Input;

/// Totals of a stream, 0 at slot 0: the packets that came in slots 1 to t, or that were sent.
fn total(counts: impl Fn(usize) -> u64, slot: usize) -> u64 {
    (1..=slot).map(counts).sum()
}

impl Input<'_> {
    /// A(t) of a stream.
    fn arrived(&self, stream: usize, slot: usize) -> u64 {
        total(|slot| self.arrivals(stream, slot), slot)
    }

    /// N(t) of a stream: the packets that are due by slot t.
    fn due_by(&self, stream: usize, slot: usize) -> u64 {
        let came = slot.saturating_sub(self.deadlines[stream] as usize);
        self.arrived(stream, came)
    }

    /// Whether some schedule meets all deadlines that fall in the run: totals that never fall, with
    /// nothing sent before it comes and at most the capacity in a slot. They are tried one by one, so
    /// this is for tiny runs.
    pub fn can_be_met(&self) -> bool {
        self.search(1, &vec![0; self.deadlines.len()])
    }

    /// Every way to go on after the slots before this one, which met their deadlines.
    fn search(&self, slot: usize, sent: &[u64]) -> bool {
        slot > self.slots as usize || self.search_slot(slot, &mut sent.to_vec(), 0, self.capacity)
    }

    /// Every number of packets of this stream and those after it.
    fn search_slot(&self, slot: usize, sent: &mut Vec<u64>, stream: usize, room: u64) -> bool {
        if stream == sent.len() {
            return self.search(slot + 1, sent);
        }
        let before = sent[stream];
        let most = room.min(self.arrived(stream, slot) - before);
        let found = (0..=most).any(|count| {
            sent[stream] = before + count;
            let in_time = sent[stream] >= self.due_by(stream, slot);
            in_time && self.search_slot(slot, sent, stream + 1, room - count)
        });
        sent[stream] = before;
        found
    }

    /// Whether packets sent in each slot, stream after stream, meet all deadlines that fall in the run.
    pub fn met_by(&self, sent: &[u64]) -> bool {
        let slots = self.slots as usize;
        let streams = 0..self.deadlines.len();
        let sent_by = |stream: usize, slot| total(|slot| sent[stream * slots + slot - 1], slot);
        let met = |stream| (0..=slots).all(|t| sent_by(stream, t) >= self.due_by(stream, t));
        streams.into_iter().all(met)
    }

    /// Theorem 7.1, (45): for every slot t of the run, every set of streams and every s up to t, the
    /// packets of the set due by t are at most those that came by s and the capacity of slots s+1 to t.
    pub fn fits(&self) -> bool {
        let streams = self.deadlines.len();
        let sum = |set: u32, of: &dyn Fn(usize) -> u64| -> u64 {
            let in_set = |stream: &usize| set >> stream & 1 == 1;
            (0..streams).filter(in_set).map(of).sum()
        };
        (0..1_u32 << streams).all(|set| {
            (0..=self.slots as usize).all(|t| {
                let due = sum(set, &|stream| self.due_by(stream, t));
                let room = |s: usize| {
                    sum(set, &|stream| self.arrived(stream, s)) + self.capacity * (t - s) as u64
                };
                (0..=t).all(|s| due <= room(s))
            })
        })
    }
}
