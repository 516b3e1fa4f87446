//! A slot whose chain is asked for, over lists that the test owns, with a margin on both sides that
//! no call may write to; and what the reference answers.

use bezhantiru::boundary::chain::{self, Chain, ChainLists, ChainVerdict, FoundChain};
use bezhantiru::{Refusal, check_chain, find_chain};
use reference::layout::StreamFile;
use tests_program::cases::wide;

const MARGIN: usize = 3;

/// Slots, marks and amounts.
pub type Lists = [Vec<u32>; 3];

/// What the finder answers, and the lists after it.
pub type Found = (FoundChain, Lists);

/// The slot of a trace whose chain is wanted; any of it may have to be refused.
#[derive(Clone, Debug)]
pub struct Asked {
    pub table: Vec<u32>,
    pub limits: (u32, u32),
    pub arrivals: Vec<u32>,
    pub slot: u32,
}

/// What a list holds before a call: a number of its own at each place.
pub fn rubbish(length: usize) -> Vec<u32> {
    (0..length as u32)
        .map(|place| 0xA5A5_0000 | place)
        .collect()
}

impl Asked {
    /// The last slot of a drawn stream.
    pub fn last_of(file: StreamFile) -> Asked {
        Asked {
            limits: (file.header.delay, file.header.buffer),
            slot: file.header.slots,
            arrivals: file.arrivals(),
            table: file.table,
        }
    }

    /// The same trace, asked for another slot.
    pub fn at(&self, slot: u32) -> Asked {
        Asked {
            slot,
            ..self.clone()
        }
    }

    /// The length of a chain list.
    pub fn length(&self) -> usize {
        self.arrivals.len() + 1
    }

    /// The boundary's answer over lists of these lengths, which the wrapper has to give too.
    pub fn find(&self, lengths: [usize; 3]) -> Found {
        let (delay, buffer) = self.limits;
        let (table, arrivals, slot) = (&self.table, &self.arrivals, self.slot);
        let (answer, lists) = lent(lengths, |lists| {
            chain::find_chain(table, delay, buffer, arrivals, slot, lists)
        });
        let wrapped = lent(lengths, |lists| {
            find_chain(table, delay, buffer, arrivals, slot, lists)
        });
        let outcome = wrapped.0.map_err(Refusal::number);
        let wanted = match answer.number {
            0 => Ok(answer.places),
            number => Err(number),
        };
        assert_eq!((outcome, &wrapped.1), (wanted, &lists), "{self:?}");
        (answer, lists)
    }

    /// The boundary's verdict on lists and a number of places, which the wrapper has to give too.
    pub fn check(&self, [slots, marks, amounts]: &Lists, places: u32) -> ChainVerdict {
        let (delay, buffer) = self.limits;
        let lent = Chain {
            slots,
            marks,
            amounts,
            places,
        };
        let (table, arrivals, slot) = (&self.table, &self.arrivals, self.slot);
        let verdict = chain::check_chain(table, delay, buffer, arrivals, slot, lent);
        let wrapped = check_chain(table, delay, buffer, arrivals, slot, lent);
        let wanted = match verdict {
            ChainVerdict { number: 0, sound } => Ok(sound == 1),
            ChainVerdict { number, .. } => Err(number),
        };
        assert_eq!(wrapped.map_err(Refusal::number), wanted, "{self:?}");
        verdict
    }

    /// What the reference finds, before the rubbish that was there.
    pub fn found_by_reference(&self, lengths: [usize; 3]) -> Found {
        let (table, arrivals) = (wide(&self.table), wide(&self.arrivals));
        let (delay, buffer) = (self.limits.0.into(), self.limits.1.into());
        let slot = self.slot.into();
        let mut lists = lengths.map(rubbish);
        match reference::chain::find(&table, delay, buffer, &arrivals, slot, lengths) {
            Ok(chain) => {
                let places = chain.slots.len() as u32;
                let columns = [chain.slots, chain.marks, chain.amounts];
                for (list, column) in lists.iter_mut().zip(columns) {
                    write(list, &column);
                }
                (FoundChain { number: 0, places }, lists)
            }
            Err(refusal) => {
                let number = refusal.number().into();
                (FoundChain { number, places: 0 }, lists)
            }
        }
    }

    /// The reference's verdict.
    pub fn checked_by_reference(&self, lists: &Lists, places: u32) -> ChainVerdict {
        let (table, arrivals) = (wide(&self.table), wide(&self.arrivals));
        let (delay, buffer) = (self.limits.0.into(), self.limits.1.into());
        let [slots, marks, amounts] = lists.each_ref().map(|list| wide(list));
        let lists = &reference::chain::Chain {
            slots,
            marks,
            amounts,
        };
        let (slot, places) = (self.slot.into(), places.into());
        match reference::chain::check(&table, delay, buffer, &arrivals, slot, lists, places) {
            Ok(sound) => ChainVerdict {
                number: 0,
                sound: sound.into(),
            },
            Err(refusal) => ChainVerdict {
                number: refusal.number().into(),
                sound: 0,
            },
        }
    }
}

fn write(list: &mut [u32], column: &[u64]) {
    for (place, &number) in list.iter_mut().zip(column) {
        *place = u32::try_from(number).expect("32 bits hold every number of a chain");
    }
}

/// Lends lists of these lengths that hold rubbish, and ends with the answer and the lists after it.
fn lent<T>(lengths: [usize; 3], call: impl FnOnce(ChainLists<'_>) -> T) -> (T, Lists) {
    let fence = rubbish(MARGIN);
    let mut lent = lengths.map(|length| [&fence[..], &rubbish(length), &fence].concat());
    let [slots, marks, amounts] = lent.each_mut().map(|list| {
        let end = list.len() - MARGIN;
        &mut list[MARGIN..end]
    });
    let answer = call(ChainLists {
        slots,
        marks,
        amounts,
    });
    let inner = lent.map(|list| {
        let (before, rest) = list.split_at(MARGIN);
        let (inner, after) = rest.split_at(rest.len() - MARGIN);
        assert_eq!((before, after), (&fence[..], &fence[..]));
        inner.to_vec()
    });
    (answer, inner)
}
