//! A stream's rows, each with the reason why nobody could have admitted more by it.

use std::fmt::Write;

use commands::amount::{arrived, buffered};
use commands::certificate::{ARRIVALS, AdmittedLink, Certificate, DELAY};
use commands::table::Row;
use reference::layout::Header;

use super::super::stream::Accepted;
use super::html::headings;

/// What the reasons rest on.
struct Reasons<'a> {
    header: &'a Header,
    certificate: Option<&'a Certificate>,
    /// Which slots are certified, and A by each, from slot 0 on.
    counting: Vec<bool>,
    arrived: Vec<u64>,
}

/// The section.
pub fn section(accepted: &Accepted) -> String {
    let certificate = accepted.certified.as_ref().map(|of| &of.found);
    let mut totals = vec![0];
    for row in &accepted.rows {
        totals.push(totals[totals.len() - 1] + row.arrived);
    }
    let reasons = Reasons {
        header: &accepted.file.header,
        certificate,
        counting: certificate.map_or(Vec::new(), Certificate::counting),
        arrived: totals,
    };
    if accepted.rows.is_empty() {
        return String::from("<h2 id=\"rows\">Rows</h2>\n<p>The stream has no slots.</p>\n");
    }
    let mut rows = String::new();
    for (slot, row) in (1..).zip(&accepted.rows) {
        reasons.put(&mut rows, slot, row);
    }
    let columns = [
        ("", "slot"),
        ("", "arrived"),
        ("", "admitted"),
        ("", "dropped"),
        ("", "departed"),
        ("", "held"),
        ("words", "why nobody has admitted more by it"),
        ("words", "dropped by"),
    ];
    let caption = "Packets of each slot, and those held after it";
    let table = format!(
        "<table class=\"rows\">\n<caption>{caption}</caption>\n{}<tbody>\n{rows}</tbody>\n</table>\n",
        headings(&columns)
    );
    let key = match certificate {
        Some(_) => KEY,
        None => "",
    };
    format!("<h2 id=\"rows\">Rows</h2>\n{key}{table}")
}

/// How a reason is read.
const KEY: &str = "<p>A reason reads: nobody has admitted more than this by the slot, since nobody has \
    admitted more than that by an earlier slot s, and no more than the amount can follow. Slot 0 is the \
    start, where all totals are 0. What bounds the amount up to slot t:</p>\n\
    <dl>\n<dt>arrivals</dt><dd>A(t) - A(s): no more have arrived, A being the packets arrived by a \
    slot.</dd>\n\
    <dt>delay</dt><dd>f(t-s+d): whoever is admitted by slot t has departed by slot t+d, and no more can \
    depart by then.</dd>\n\
    <dt>buffer</dt><dd>f(t-s-1) + q: no more can depart before slot t, and no more than q be there in \
    it.</dd>\n</dl>\n";

impl Reasons<'_> {
    /// A slot's row.
    fn put(&self, rows: &mut String, slot: usize, row: &Row) {
        let Row {
            arrived,
            admitted,
            dropped,
            departed,
            held,
        } = row;
        let class = if *dropped > 0 { " class=\"lost\"" } else { "" };
        let (why, by) = (self.why(slot), self.dropped_by(slot, *dropped));
        // Writing to a string does not fail.
        let _ = writeln!(
            rows,
            "<tr id=\"slot-{slot}\"{class}><th scope=\"row\"><a href=\"#slot-{slot}\">{slot}</a></th>\
             <td>{arrived}</td><td>{admitted}</td><td>{dropped}</td><td>{departed}</td><td>{held}</td>\
             <td class=\"words\">{why}</td><td class=\"words\">{by}</td></tr>"
        );
    }

    /// Where both limits are none, all that arrives is admitted.
    fn why(&self, slot: usize) -> String {
        let Some(certificate) = self.certificate else {
            let admitted = self.arrived[slot];
            return format!("{admitted} by slot {slot}: all that arrived");
        };
        let found = &certificate.slots[slot - 1];
        let admitted = found.admitted;
        match found.admitted_link {
            Some(link) => {
                let before = admitted - link.amount;
                let first = link.first;
                let loose = match self.counting[first as usize] {
                    true => "",
                    false => ", which is not certified,",
                };
                let (sum, word) = (self.sum(slot as u64, &link), link.word());
                format!(
                    "{admitted} by slot {slot}: {before} by slot {first}{loose} and {sum}, {word}"
                )
            }
            None => {
                let due = slot + self.header.delay as usize;
                format!(
                    "{admitted} by slot {slot}: not certified, since slot {due}, its deadline, is after the last"
                )
            }
        }
    }

    /// A link's amount, as a sum.
    fn sum(&self, slot: u64, link: &AdmittedLink) -> String {
        let AdmittedLink {
            first,
            mark,
            amount,
        } = *link;
        let [delay, buffer] = [self.header.delay, self.header.buffer].map(u64::from);
        match mark {
            ARRIVALS => {
                let totals = [first, slot].map(|slot| self.arrived[slot as usize]);
                arrived([first, slot], totals, amount)
            }
            DELAY => format!("f({}) = {amount}", slot - first + delay),
            _ => buffered(slot - first - 1, [amount - buffer, buffer], amount),
        }
    }

    /// The limit for which a slot's packets are dropped: its link's, which is no arrivals link where some
    /// are. A slot without a link is one whose deadline lies after the last slot.
    fn dropped_by(&self, slot: usize, dropped: u64) -> String {
        if dropped == 0 {
            return String::new();
        }
        let slots = self.certificate.map_or(&[][..], |of| &of.slots);
        let link = slots.get(slot - 1).and_then(|of| of.admitted_link);
        let word = link.map_or("delay", |link| link.word());
        format!("{word} limit")
    }
}
