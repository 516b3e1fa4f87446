//! Anyone's rows judged by the rules of permitted pairs. Document 01, "The lowest loss curve", with the
//! buffer's fill of document 02, 2.9.

use crate::boundary::{self, Rows};
use crate::refusal::Refusal;

/// What the judge says of rows.
#[derive(Clone, Copy, Debug, PartialEq, Eq)]
pub enum Verdict {
    Permitted,
    /// The first slot in which a rule breaks, and the first rule that does in it.
    Breaks {
        rule: Rule,
        slot: u32,
    },
}

/// The rules in the order in which they are looked at in a slot t. U and V are the totals admitted and
/// departed.
#[derive(Clone, Copy, Debug, PartialEq, Eq)]
pub enum Rule {
    /// More is admitted in the slot than arrives in it.
    Arrivals,
    /// V(t) is above U(t).
    Departures,
    /// V(t) - V(t-k) is above the table's entry for window k; the smallest such window.
    Envelope { window: u32 },
    /// U(t) - V(t-1) is above q.
    Buffer,
    /// U(t-d) is above V(t).
    Delay,
    /// A number that the library does not give.
    Unlisted(u32),
}

impl Rule {
    pub(crate) fn numbered(number: u32, window: u32) -> Rule {
        match number {
            1 => Rule::Arrivals,
            2 => Rule::Departures,
            3 => Rule::Envelope { window },
            4 => Rule::Buffer,
            5 => Rule::Delay,
            _ => Rule::Unlisted(number),
        }
    }
}

/// Whether somebody else's rows of a trace, any numbers, are permitted, and if not, which rule breaks
/// first and where. Or the first refusal of table, 6, 7, 23, 10, 11, 8; 8 is for the arrivals alone.
///
/// ```
/// use bezhantiru::{Refusal, Rows, Rule, Verdict, judge};
///
/// # fn main() -> Result<(), Refusal> {
/// let (table, arrivals) = ([0, 2, 3], [5, 0, 4, 0]);
/// let ours = Rows { admitted: &[3, 0, 3, 0], departed: &[2, 1, 2, 1] };
/// assert_eq!(judge(&table, 1, 9, &arrivals, ours)?, Verdict::Permitted);
/// // Nothing is lost here, because slots 1 and 2 let 4 go where the table has 3.
/// let theirs = Rows { admitted: &[5, 0, 4, 0], departed: &[2, 2, 2, 2] };
/// let rule = Rule::Envelope { window: 2 };
/// let broken = Verdict::Breaks { rule, slot: 2 };
/// assert_eq!(judge(&table, 1, 9, &arrivals, theirs)?, broken);
/// # Ok(())
/// # }
/// ```
pub fn judge(
    table: &[u32],
    delay: u32,
    buffer: u32,
    arrivals: &[u32],
    rows: Rows<'_>,
) -> Result<Verdict, Refusal> {
    let judgement = boundary::judge(table, delay, buffer, arrivals, rows);
    Refusal::check(judgement.number)?;
    Ok(match judgement.rule {
        0 => Verdict::Permitted,
        number => Verdict::Breaks {
            rule: Rule::numbered(number, judgement.window),
            slot: judgement.slot,
        },
    })
}
