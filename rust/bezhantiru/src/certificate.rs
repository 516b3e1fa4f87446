//! Certificates: for every slot the links by which nobody could have admitted or let go more.

use crate::boundary::certificate::{self, Certificate, CertificateLists};
use crate::boundary::{Judgement, Rows};
use crate::judge::Rule;
use crate::refusal::Refusal;

/// What the check says of rows and links.
#[derive(Clone, Copy, Debug, PartialEq, Eq)]
pub enum Checked {
    /// The rows are permitted and every link holds: nobody could have lost fewer by any slot.
    Certified,
    /// The rows are not permitted: the first slot in which a rule breaks, and the first rule in it.
    Breaks { rule: Rule, slot: u32 },
    /// The first slot in which a link does not hold, and the first link in it that does not.
    Fails { link: Link, slot: u32 },
}

/// The links of a slot t, in the order in which they are looked at. U and V are the totals admitted and
/// departed.
#[derive(Clone, Copy, Debug, PartialEq, Eq)]
pub enum Link {
    /// Its first slot s is below t, its mark is usable, and U(t) is U(s) plus the mark's amount.
    Admitted,
    /// Its first slot r is at most t, and V(t) is U(r) + f(t-r).
    Departed,
}

impl Checked {
    fn said(judgement: Judgement) -> Checked {
        let slot = judgement.slot;
        match judgement.rule {
            0 => Checked::Certified,
            6 => Checked::Fails {
                link: Link::Admitted,
                slot,
            },
            7 => Checked::Fails {
                link: Link::Departed,
                slot,
            },
            number => Checked::Breaks {
                rule: Rule::numbered(number, judgement.window),
                slot,
            },
        }
    }
}

/// Fills the lists with the certificate of our own run of the arrivals: for slots 1, 2, .. the
/// earliest first slot of the usable admitted links that hold and its lowest mark, 0 and 0 where none
/// holds, and the smallest first slot of the departed links that hold. Or gives the first refusal of
/// table, 6, 7, 23, 10, 11, 8 and leaves the lists as they were.
///
/// ```
/// use bezhantiru::{Certificate, CertificateLists, Checked, Link, Refusal, Rows};
/// use bezhantiru::{certify, check_certificate};
///
/// # fn main() -> Result<(), Refusal> {
/// let (table, arrivals) = ([0, 2, 3], [5, 0, 4, 0]);
/// let [mut admitted_from, mut admitted_by, mut departed_from] = [[7; 4]; 3];
/// let lists = CertificateLists {
///     admitted_from: &mut admitted_from,
///     admitted_by: &mut admitted_by,
///     departed_from: &mut departed_from,
/// };
/// certify(&table, 1, 9, &arrivals, lists)?;
/// // U(3) = 6 is U(0) + f(3+1), by the delay limit; in slots 2 and 4 nothing arrives.
/// assert_eq!((admitted_from, admitted_by), ([0, 1, 0, 3], [2, 1, 2, 1]));
/// assert_eq!(departed_from, [0, 0, 0, 0]);
///
/// let ours = Rows { admitted: &[3, 0, 3, 0], departed: &[2, 1, 2, 1] };
/// let found = Certificate {
///     admitted_from: &admitted_from,
///     admitted_by: &admitted_by,
///     departed_from: &departed_from,
/// };
/// assert_eq!(check_certificate(&table, 1, 9, &arrivals, ours, found)?, Checked::Certified);
/// let fewer = Rows { admitted: &[3, 0, 2, 0], departed: &[2, 1, 2, 0] };
/// let fails = Checked::Fails { link: Link::Admitted, slot: 3 };
/// assert_eq!(check_certificate(&table, 1, 9, &arrivals, fewer, found)?, fails);
/// # Ok(())
/// # }
/// ```
pub fn certify(
    table: &[u32],
    delay: u32,
    buffer: u32,
    arrivals: &[u32],
    lists: CertificateLists<'_>,
) -> Result<(), Refusal> {
    Refusal::check(certificate::certify(table, delay, buffer, arrivals, lists))
}

/// Whether anyone's rows and links, any numbers, are a certificate, however they were found; then no
/// permitted rows have admitted or let go more or lost fewer by any slot, whatever the trace ends in.
/// Or the first refusal of table, 6, 7, 23, 10, 11, 8; 8 is for the arrivals alone.
pub fn check_certificate(
    table: &[u32],
    delay: u32,
    buffer: u32,
    arrivals: &[u32],
    rows: Rows<'_>,
    certificate: Certificate<'_>,
) -> Result<Checked, Refusal> {
    let judgement =
        certificate::check_certificate(table, delay, buffer, arrivals, rows, certificate);
    Refusal::check(judgement.number)?;
    Ok(Checked::said(judgement))
}
