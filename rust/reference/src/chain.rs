//! Each loss with its chain: why no more was admitted by a slot. Document 02, 2.8.

use crate::closure;
use crate::refusal::{self, Refusal};
use crate::regulator::{Limits, Totals};

/// What bounds a link, by the number that marks it.
#[derive(Clone, Copy, Debug, PartialEq, Eq)]
pub enum Mark {
    Arrivals = 1,
    Delay = 2,
    Buffer = 3,
}

impl Mark {
    /// From the lowest on.
    pub const ALL: [Mark; 3] = [Mark::Arrivals, Mark::Delay, Mark::Buffer];

    pub fn number(self) -> u64 {
        self as u64
    }

    pub fn numbered(number: u64) -> Option<Mark> {
        Mark::ALL.into_iter().find(|mark| mark.number() == number)
    }
}

/// The places of a chain, 0, 0, 0 first; then a link's last slot, mark and amount at each.
#[derive(Clone, Debug, Default, PartialEq, Eq)]
pub struct Chain {
    pub slots: Vec<u64>,
    pub marks: Vec<u64>,
    pub amounts: Vec<u64>,
}

/// What links of one trace are found and judged by.
pub struct Trace {
    pub(crate) f: Vec<u64>,
    pub(crate) limits: Limits,
    pub totals: Totals,
}

impl Trace {
    /// Of an accepted set-up and trace, with our totals.
    pub fn new(table: &[u64], delay: u64, buffer: u64, arrivals: &[u64]) -> Result<Trace, Refusal> {
        Trace::with(table, delay, buffer, arrivals.len(), |f, limits| {
            Totals::over(f, limits, arrivals)
        })
    }

    /// The same with totals that are made from f and the limits.
    pub(crate) fn with(
        table: &[u64],
        delay: u64,
        buffer: u64,
        slots: usize,
        totals: impl FnOnce(&[u64], Limits) -> Totals,
    ) -> Result<Trace, Refusal> {
        let limits = Limits::from_numbers(delay, buffer)?;
        let f = closure::by_recursion(table, slots + limits.delay.unwrap_or(0));
        let totals = totals(&f, limits);
        Ok(Trace { f, limits, totals })
    }

    /// A link's amount: the packets arrived after its first slot through its last, f(w+d), or
    /// f(w-1) + q. A limit that is none marks no link.
    pub fn amount(&self, mark: Mark, first: usize, last: usize) -> Option<u64> {
        let window = last - first;
        let arrived = &self.totals.arrived;
        match mark {
            Mark::Arrivals => Some(arrived[last] - arrived[first]),
            Mark::Delay => self.limits.delay.map(|delay| self.f[window + delay]),
            Mark::Buffer => self.limits.buffer_term(&self.f, window),
        }
    }

    /// The link that ends in a slot: of those whose amount and X at the first slot make X at the
    /// last, the one with the earliest first slot, then the lowest mark.
    fn link(&self, last: usize) -> Option<(usize, Mark, u64)> {
        let x = &self.totals.admitted;
        let marked = |first: usize| Mark::ALL.into_iter().map(move |mark| (first, mark));
        (0..last).flat_map(marked).find_map(|(first, mark)| {
            let amount = self.amount(mark, first, last)?;
            (x[first] + amount == x[last]).then_some((first, mark, amount))
        })
    }

    /// Link by link from the slot back to slot 0. Every slot above 0 has a link, because X(t) is the
    /// least of these sums.
    fn chain(&self, slot: usize) -> Chain {
        let mut links = Vec::new();
        let mut last = slot;
        while let Some((first, mark, amount)) = self.link(last) {
            links.push((last as u64, mark.number(), amount));
            last = first;
        }
        links.push((0, 0, 0));
        let mut chain = Chain::default();
        for (slot, mark, amount) in links.into_iter().rev() {
            chain.slots.push(slot);
            chain.marks.push(mark);
            chain.amounts.push(amount);
        }
        chain
    }

    /// Whether places make a chain to the slot, however its links were found.
    fn sound(&self, slot: u64, chain: &[[u64; 3]]) -> bool {
        chain.first() == Some(&[0, 0, 0])
            && chain.last().is_some_and(|place| place[0] == slot)
            && chain
                .windows(2)
                .all(|pair| self.sound_link(pair[0][0], pair[1], slot))
    }

    fn sound_link(&self, first: u64, [last, mark, amount]: [u64; 3], slot: u64) -> bool {
        let rises = first < last && last <= slot;
        rises
            && Mark::numbered(mark)
                .and_then(|mark| self.amount(mark, first as usize, last as usize))
                .is_some_and(|wanted| wanted == amount)
    }
}

/// The chain of a slot, which fills the first places of the lent lists, or the first refusal of
/// set-up, 10, 11, 8, 18.
pub fn find(
    table: &[u64],
    delay: u64,
    buffer: u64,
    arrivals: &[u64],
    slot: u64,
    list_lengths: [usize; 3],
) -> Result<Chain, Refusal> {
    refusal::chain(table, delay, buffer, arrivals, slot, list_lengths)?;
    let trace = Trace::new(table, delay, buffer, arrivals)?;
    Ok(trace.chain(slot as usize))
}

/// Whether the lists' first places, as many as told, are a chain to the slot, or the first refusal of
/// set-up, 10, 11, 8, 18.
pub fn check(
    table: &[u64],
    delay: u64,
    buffer: u64,
    arrivals: &[u64],
    slot: u64,
    lists: &Chain,
    places: u64,
) -> Result<bool, Refusal> {
    let Chain {
        slots,
        marks,
        amounts,
    } = lists;
    let lengths = [slots.len(), marks.len(), amounts.len()];
    refusal::chain(table, delay, buffer, arrivals, slot, lengths)?;
    if places < 1 || places > slots.len() as u64 {
        return Ok(false);
    }
    let place = |place: usize| [slots[place], marks[place], amounts[place]];
    let chain: Vec<[u64; 3]> = (0..places as usize).map(place).collect();
    let trace = Trace::new(table, delay, buffer, arrivals)?;
    Ok(trace.sound(slot, &chain))
}
