//! Anyone's rows of a trace before the judge, and what the reference says of them.

use bezhantiru::boundary::{self, Judgement, Rows};
use bezhantiru::{Rule, Verdict, judge};
use reference::judge::{Broken, all_broken};
use reference::refusal;
use tests_program::cases::wide;

/// Any of it may have to be refused.
#[derive(Clone, Debug)]
pub struct Asked {
    pub table: Vec<u32>,
    pub limits: (u32, u32),
    pub arrivals: Vec<u32>,
    pub admitted: Vec<u32>,
    pub departed: Vec<u32>,
}

pub const PERMITTED: Judgement = Judgement {
    number: 0,
    rule: 0,
    slot: 0,
    window: 0,
};

impl Asked {
    /// The boundary's judgement, which the wrapper has to give too.
    pub fn judge(&self) -> Judgement {
        let (table, (delay, buffer), arrivals) = (&self.table, self.limits, &self.arrivals);
        let rows = Rows {
            admitted: &self.admitted,
            departed: &self.departed,
        };
        let judgement = boundary::judge(table, delay, buffer, arrivals, rows);
        let wrapped = match judge(table, delay, buffer, arrivals, rows) {
            Ok(verdict) => judgement_of(verdict),
            Err(refusal) => refused(refusal.number()),
        };
        assert_eq!(wrapped, judgement, "{self:?}");
        judgement
    }

    /// Every rule that breaks, as the reference finds them.
    pub fn broken(&self) -> Result<Vec<Broken>, refusal::Refusal> {
        all_broken(
            &wide(&self.table),
            self.limits.0.into(),
            self.limits.1.into(),
            &wide(&self.arrivals),
            &wide(&self.admitted),
            &wide(&self.departed),
        )
    }

    pub fn by_reference(&self) -> Judgement {
        match self.broken() {
            Ok(broken) => broken.first().map_or(PERMITTED, |broken| Judgement {
                number: 0,
                rule: broken.rule.number() as u32,
                slot: broken.slot as u32,
                window: broken.window as u32,
            }),
            Err(refusal) => refused(refusal.number().into()),
        }
    }
}

pub fn refused(number: u32) -> Judgement {
    Judgement {
        number,
        ..PERMITTED
    }
}

fn judgement_of(verdict: Verdict) -> Judgement {
    match verdict {
        Verdict::Permitted => PERMITTED,
        Verdict::Breaks { rule, slot } => broken(rule, slot),
    }
}

/// What the boundary says of a rule that breaks in a slot.
pub fn broken(rule: Rule, slot: u32) -> Judgement {
    let (rule, window) = match rule {
        Rule::Arrivals => (1, 0),
        Rule::Departures => (2, 0),
        Rule::Envelope { window } => (3, window),
        Rule::Buffer => (4, 0),
        Rule::Delay => (5, 0),
        Rule::Unlisted(number) => panic!("rule {number}"),
    };
    Judgement {
        number: 0,
        rule,
        slot,
        window,
    }
}
