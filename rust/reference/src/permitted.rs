//! Permitted pairs, and a search through all of them. Document 01, "The lowest loss curve".

use crate::regulator::Limits;
use crate::square::Square;

/// What bounds departures: a table by its windows, a square by its slots.
pub trait Envelope {
    /// The most that may depart in slots s+1 to t.
    fn most(&self, s: usize, t: usize) -> u64;
}

/// f for windows from 0 on.
impl Envelope for Vec<u64> {
    fn most(&self, s: usize, t: usize) -> u64 {
        self[t - s]
    }
}

impl Envelope for Square {
    fn most(&self, s: usize, t: usize) -> u64 {
        self[s][t]
    }
}

/// What a pair is judged by: the envelope for slots 0 to T, the limits, and A(0) to A(T).
#[derive(Clone, Copy, Debug)]
pub struct Terms<'a, F> {
    pub f: &'a F,
    pub limits: Limits,
    pub arrived: &'a [u64],
}

/// Admitted and departed totals, U(0) and V(0) first.
#[derive(Clone, Debug, PartialEq, Eq)]
pub struct Pair {
    pub admitted: Vec<u64>,
    pub departed: Vec<u64>,
}

/// The totals from slot 0 on, of the counts of slots 1, 2, ..
pub fn totals(counts: &[u64]) -> Vec<u64> {
    let mut totals = vec![0];
    for count in counts {
        totals.push(totals[totals.len() - 1] + count);
    }
    totals
}

impl Pair {
    /// The one pair at slot 0.
    fn start() -> Pair {
        Pair {
            admitted: vec![0],
            departed: vec![0],
        }
    }
}

impl<F: Envelope> Terms<'_, F> {
    /// Whether the pair keeps every rule from slot 0 to T.
    pub fn permit(&self, pair: &Pair) -> bool {
        let slots = self.arrived.len() - 1;
        let as_long = pair.admitted.len() == slots + 1 && pair.departed.len() == slots + 1;
        as_long && self.permit_start(pair) && (1..=slots).all(|slot| self.permit_slot(pair, slot))
    }

    /// U(0) and V(0) are 0, which keeps every limit at slot 0.
    fn permit_start(&self, pair: &Pair) -> bool {
        pair.admitted[0] == 0 && pair.departed[0] == 0
    }

    /// The rules whose last slot is this one.
    fn permit_slot(&self, pair: &Pair, slot: usize) -> bool {
        self.permit_totals(pair, slot)
            && self.permit_envelope(pair, slot)
            && self.permit_buffer(pair, slot)
            && self.permit_delay(pair, slot)
    }

    /// Neither total falls, no more is admitted than arrived in the slot, and no more has departed
    /// than was admitted.
    fn permit_totals(&self, pair: &Pair, slot: usize) -> bool {
        let (u, v) = (&pair.admitted, &pair.departed);
        let arrivals = self.arrived[slot] - self.arrived[slot - 1];
        u[slot] >= u[slot - 1]
            && u[slot] - u[slot - 1] <= arrivals
            && v[slot] >= v[slot - 1]
            && v[slot] <= u[slot]
    }

    /// V(t) - V(s) is at most f(t-s), or F(s,t), for every s below t.
    fn permit_envelope(&self, pair: &Pair, slot: usize) -> bool {
        let v = &pair.departed;
        (0..slot).all(|s| v[slot] - v[s] <= self.f.most(s, slot))
    }

    /// U(t) - V(t-1) is at most q; by the count after departures, U(t) - V(t).
    fn permit_buffer(&self, pair: &Pair, slot: usize) -> bool {
        let through = self.limits.count.departed_through(slot);
        let fill = pair.admitted[slot] - pair.departed[through];
        self.limits.buffer.is_none_or(|buffer| fill <= buffer)
    }

    /// Where this slot is the deadline of slot t-d, U(t-d) is at most V(t).
    fn permit_delay(&self, pair: &Pair, slot: usize) -> bool {
        let due = self.limits.delay.and_then(|delay| slot.checked_sub(delay));
        due.is_none_or(|due| pair.admitted[due] <= pair.departed[slot])
    }

    /// For each slot the greatest U(t), and the greatest V(t), of all permitted pairs. The pairs
    /// are tried one by one, so this is for tiny traces.
    pub fn greatest(&self) -> Pair {
        let mut greatest = Pair {
            admitted: vec![0; self.arrived.len()],
            departed: vec![0; self.arrived.len()],
        };
        self.search(Pair::start(), &mut |pair| {
            raise(&mut greatest.admitted, &pair.admitted);
            raise(&mut greatest.departed, &pair.departed);
        });
        greatest
    }

    /// Every permitted pair, in the order of U(1), V(1), U(2), V(2), ..; for tiny traces too.
    pub fn pairs(&self) -> Vec<Pair> {
        let mut pairs = Vec::new();
        self.search(Pair::start(), &mut |pair| pairs.push(pair.clone()));
        pairs
    }

    /// Every way to go on from the slots chosen so far that breaks no rule.
    fn search(&self, chosen: Pair, found: &mut dyn FnMut(&Pair)) {
        let slot = chosen.admitted.len();
        if slot == self.arrived.len() {
            found(&chosen);
            return;
        }
        let (u, v) = (chosen.admitted[slot - 1], chosen.departed[slot - 1]);
        let arrivals = self.arrived[slot] - self.arrived[slot - 1];
        for admitted in u..=u + arrivals {
            for departed in v..=admitted {
                let mut longer = chosen.clone();
                longer.admitted.push(admitted);
                longer.departed.push(departed);
                if self.permit_slot(&longer, slot) {
                    self.search(longer, found);
                }
            }
        }
    }
}

fn raise(greatest: &mut [u64], totals: &[u64]) {
    for (most, &total) in greatest.iter_mut().zip(totals) {
        *most = total.max(*most);
    }
}

/// The premise of the lowest loss curve: d is none, or the trace ends in at least d slots without
/// arrivals.
pub fn premise(limits: Limits, arrivals: &[u64]) -> bool {
    let empty_at_end = arrivals
        .iter()
        .rev()
        .take_while(|&&count| count == 0)
        .count();
    limits.delay.is_none_or(|delay| empty_at_end >= delay)
}
