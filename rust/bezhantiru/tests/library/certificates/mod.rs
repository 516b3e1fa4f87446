//! Certificates over lists that the test owns: found, and checked beside anyone's rows; and what the
//! reference says.

use bezhantiru::boundary::{self, Judgement, Rows};
use bezhantiru::{
    Certificate, CertificateLists, Checked, Link, Refusal, certify, check_certificate,
};
use reference::certificate::{self, Flaw};
use reference::refusal;
use tests_program::cases::{said, wide};

use crate::anyone::{Asked, PERMITTED, broken, refused};
use crate::lent::{self, Run, lend_each};

/// First slots and marks of the admitted links, first slots of the departed ones.
pub type Links = [Vec<u32>; 3];

/// Rows and links of a trace; any of it may have to be refused.
#[derive(Clone, Debug)]
pub struct Claimed {
    pub rows: Asked,
    pub links: Links,
}

/// The certificate of our run of the trace, over lists of these lengths.
pub fn found(asked: &Asked, lengths: [usize; 3]) -> Run {
    let (table, (delay, buffer), arrivals) = (&asked.table, asked.limits, &asked.arrivals);
    lend_each(lengths, |[admitted_from, admitted_by, departed_from]| {
        let lists = CertificateLists {
            admitted_from,
            admitted_by,
            departed_from,
        };
        certify(table, delay, buffer, arrivals, lists)
    })
}

pub fn found_by_reference(asked: &Asked, lengths: [usize; 3]) -> Run {
    let (table, arrivals) = (wide(&asked.table), wide(&asked.arrivals));
    let (delay, buffer) = (asked.limits.0.into(), asked.limits.1.into());
    match certificate::find(&table, delay, buffer, &arrivals, lengths) {
        Ok(found) => Run {
            outcome: Ok(()),
            lists: narrow(found),
        },
        Err(refusal) => lent::refused(listed(refusal), lengths),
    }
}

/// The rows that are certified, whatever the trace ends in, by the reference.
pub fn certified(asked: &Asked) -> Result<Claimed, String> {
    let (table, arrivals) = (wide(&asked.table), wide(&asked.arrivals));
    let (delay, buffer) = (asked.limits.0.into(), asked.limits.1.into());
    let (rows, links) = said(certificate::certified(&table, delay, buffer, &arrivals))?;
    let counts = |list: Vec<u64>| list.into_iter().map(|count| count as u32).collect();
    Ok(Claimed {
        rows: Asked {
            admitted: counts(rows.admitted),
            departed: counts(rows.departed),
            ..asked.clone()
        },
        links: narrow(links),
    })
}

fn narrow(found: certificate::Certificate) -> Links {
    let lists = [found.admitted_from, found.admitted_by, found.departed_from];
    lists.map(|list| list.into_iter().map(|number| number as u32).collect())
}

fn listed(refusal: refusal::Refusal) -> Refusal {
    Refusal::listed(refusal.number().into()).expect("a number of the documents")
}

impl Claimed {
    /// The boundary's judgement, which the wrapper has to give too.
    pub fn check(&self) -> Judgement {
        let Asked {
            table,
            limits: (delay, buffer),
            arrivals,
            admitted,
            departed,
        } = &self.rows;
        let rows = Rows { admitted, departed };
        let [admitted_from, admitted_by, departed_from] = &self.links;
        let links = Certificate {
            admitted_from,
            admitted_by,
            departed_from,
        };
        let (delay, buffer) = (*delay, *buffer);
        let judgement =
            boundary::certificate::check_certificate(table, delay, buffer, arrivals, rows, links);
        let wrapped = match check_certificate(table, delay, buffer, arrivals, rows, links) {
            Ok(checked) => judgement_of(checked),
            Err(refusal) => refused(refusal.number()),
        };
        assert_eq!(wrapped, judgement, "{self:?}");
        judgement
    }

    pub fn by_reference(&self) -> Judgement {
        let Asked {
            table,
            limits: (delay, buffer),
            arrivals,
            admitted,
            departed,
        } = &self.rows;
        let rows = [&wide(admitted)[..], &wide(departed)];
        let [admitted_from, admitted_by, departed_from] = self.links.each_ref().map(|l| wide(l));
        let links = certificate::Certificate {
            admitted_from,
            admitted_by,
            departed_from,
        };
        let (delay, buffer) = ((*delay).into(), (*buffer).into());
        let (table, arrivals) = (wide(table), wide(arrivals));
        match certificate::check(&table, delay, buffer, &arrivals, rows, &links) {
            Ok(flaw) => {
                let numbers = flaw.map_or([0; 3], Flaw::numbers);
                let [rule, slot, window] = numbers.map(|number| number as u32);
                Judgement {
                    number: 0,
                    rule,
                    slot,
                    window,
                }
            }
            Err(refusal) => refused(refusal.number().into()),
        }
    }
}

fn judgement_of(checked: Checked) -> Judgement {
    let (rule, slot) = match checked {
        Checked::Certified => return PERMITTED,
        Checked::Breaks { rule, slot } => return broken(rule, slot),
        Checked::Fails { link, slot } => match link {
            Link::Admitted => (6, slot),
            Link::Departed => (7, slot),
        },
    };
    Judgement {
        rule,
        slot,
        ..PERMITTED
    }
}
