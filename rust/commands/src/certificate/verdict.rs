//! A printed certificate held to its stream file and a permitted table: the library checks the links,
//! and all other numbers are redone.

use bezhantiru::{Certificate, Checked, Link, check_certificate};

use super::printed::{Printed, has_to_be, narrow, need};
use super::slots::{ARRIVALS, DepartedLink, HEADING, Slot, certified, last_line};
use super::table::{Stream, Table};

const ADMITTED_LINK: &str = "the admitted link";
const DEPARTED_LINK: &str = "the departed link";

/// What a text certifies; or the line that is wrong, or the first slot and what fails there.
pub fn verdict(text: &[u8], stream: &Stream, table: &Table) -> Result<String, String> {
    let slots = stream.arrivals.len();
    let printed = Printed::read(text, slots, HEADING, Slot::read)?;
    let failing = failing(&printed.rows, stream, table)?;
    let [a, u, v] = table.totals(stream);
    printed.check_rows(|number, slot| {
        has_to_be("admitted", slot.admitted, u[number])?;
        holds(failing != Some((number, Link::Admitted)), ADMITTED_LINK)?;
        if let Some(link) = slot.admitted_link {
            let first = link.first as usize;
            let (arrived, admitted) = (a[number] - a[first], u[number] - u[first]);
            holds(link.mark != ARRIVALS || arrived == admitted, ADMITTED_LINK)?;
            amount_has_to_be(ADMITTED_LINK, link.amount, admitted)?;
        }
        has_to_be("departed", slot.departed, v[number])?;
        holds(failing != Some((number, Link::Departed)), DEPARTED_LINK)?;
        let DepartedLink { first, amount } = slot.departed_link;
        amount_has_to_be(DEPARTED_LINK, amount, v[number] - u[first as usize])
    })?;
    let count = certified(&printed.rows);
    printed.check_last(&last_line(count, slots))?;
    Ok(words(count, slots))
}

/// What is said of so many certified slots.
pub fn words(certified: usize, slots: usize) -> String {
    if certified == slots {
        format!("certified: no regulator could have lost fewer by any of {slots} slots\n")
    } else {
        format!("certified in {certified} of {slots} slots\n")
    }
}

fn holds(holds: bool, link: &str) -> Result<(), String> {
    need(holds, || format!("{link} does not hold"))
}

fn amount_has_to_be(link: &str, found: u64, wanted: u64) -> Result<(), String> {
    has_to_be(&format!("{link}'s amount"), found, wanted)
}

/// The first slot with a link that does not hold, and the link, by the library; arrivals links are
/// counted once more by the caller.
///
/// The library takes an admitted link in every slot. A slot without one is handed on as if only the
/// admitted packets had arrived in it, so that these are a link from the slot before that holds. The rows
/// stay permitted, and delay, buffer and departed links mean what they meant. An arrivals link over such
/// a slot holds if it did, since all that arrived there was admitted; but it may hold where it did not.
fn failing(
    slots: &[Slot],
    stream: &Stream,
    table: &Table,
) -> Result<Option<(usize, Link)>, String> {
    let mut arrivals = stream.arrivals.clone();
    let (mut admitted_from, mut admitted_by) = (Vec::new(), Vec::new());
    for (place, slot) in slots.iter().enumerate() {
        let (first, mark) = match slot.admitted_link {
            Some(link) => (narrow(link.first), link.mark),
            None => {
                arrivals[place] = table.admitted[place];
                (place as u32, ARRIVALS)
            }
        };
        admitted_from.push(first);
        admitted_by.push(mark);
    }
    let departed_from = slots.iter().map(|slot| narrow(slot.departed_link.first));
    let links = Certificate {
        admitted_from: &admitted_from,
        admitted_by: &admitted_by,
        departed_from: &departed_from.collect::<Vec<u32>>(),
    };
    let (delay, buffer) = (stream.delay, stream.buffer);
    let checked = check_certificate(&stream.table, delay, buffer, &arrivals, table.rows(), links);
    match checked.map_err(|refusal| refusal.to_string())? {
        Checked::Certified => Ok(None),
        Checked::Fails { link, slot } => Ok(Some((slot as usize, link))),
        Checked::Breaks { .. } => Err(String::from("judge and checker disagree on the table")),
    }
}
