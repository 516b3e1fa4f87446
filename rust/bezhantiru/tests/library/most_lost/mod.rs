//! The trace that loses most, asked for over a list that the test owns; and what the reference answers.

use bezhantiru::boundary::{self, Worst};
use bezhantiru::{Refusal, worst_trace};
use reference::refusal;
use reference::worst::{self, Within};
use tests_program::cases::wide;

use crate::one_list::{lend, rubbish};

/// Any of it may have to be refused.
#[derive(Clone, Debug)]
pub struct Asked {
    pub table: Vec<u32>,
    pub limits: (u32, u32),
    pub slots: u32,
    pub most_in_slot: u32,
    pub most_in_all: u32,
}

/// What is answered, and the list after it.
pub type Found = (Worst, Vec<u32>);

/// One of the reference's two ways to the trace.
pub type Way = fn(&[u64], u64, u64, Within, usize) -> Result<worst::Worst, refusal::Refusal>;

impl Asked {
    /// The boundary's answer over a list of this length, which the wrapper has to give too.
    pub fn find(&self, length: usize) -> Found {
        let (table, (delay, buffer), slots) = (&self.table, self.limits, self.slots);
        let (in_slot, in_all) = (self.most_in_slot, self.most_in_all);
        let (answer, list) = lend(length, |list| {
            boundary::worst_trace(table, delay, buffer, slots, in_slot, in_all, list)
        });
        let (outcome, wrapped) = lend(length, |list| {
            worst_trace(table, delay, buffer, slots, in_slot, in_all, list)
        });
        let wanted = match answer.number {
            0 => Ok(answer.loss),
            number => Err(number),
        };
        let outcome = outcome.map_err(Refusal::number);
        assert_eq!((outcome, &wrapped), (wanted, &list), "{self:?}");
        (answer, list)
    }

    /// What the reference answers; where it refuses, the list is as it was and the loss 0.
    pub fn by_reference(&self, way: Way, length: usize) -> Found {
        let (delay, buffer) = (self.limits.0.into(), self.limits.1.into());
        let within = Within {
            slots: self.slots.into(),
            most_in_slot: self.most_in_slot.into(),
            most_in_all: self.most_in_all.into(),
        };
        match way(&wide(&self.table), delay, buffer, within, length) {
            Ok(found) => {
                let loss = fitting(found.loss);
                let trace = found.trace.into_iter().map(fitting).collect();
                (Worst { number: 0, loss }, trace)
            }
            Err(refusal) => {
                let number = refusal.number().into();
                (Worst { number, loss: 0 }, rubbish(length))
            }
        }
    }
}

fn fitting(count: u64) -> u32 {
    u32::try_from(count).expect("32 bits hold every count and loss")
}
