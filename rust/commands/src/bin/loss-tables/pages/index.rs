//! The page that lists all streams.

use std::ffi::{OsStr, OsString};

use commands::markup::escaped;
use reference::layout::Header;

use super::super::folder::{PAGE, SUMMARY, file_of};
use super::super::sha256::Sha256;
use super::super::stream::{Accepted, Told, Worked};
use super::super::summary::Counts;
use super::html::{document, headings, link, linked, shown_name, wide};
use super::sketch::sketch;
use super::words::{buffer, counted, delay, number, share};
use super::{REFEREE, checks};

/// What the index tells of a stream.
pub struct Entry {
    name: OsString,
    /// None of a refused stream.
    accepted: Option<Numbers>,
    /// How far it is certified, or why it is not.
    certified: String,
}

struct Numbers {
    header: Header,
    counts: Counts,
    sketch: String,
    /// Slots that are certified.
    certified: u64,
}

impl Entry {
    pub fn of(worked: &Worked) -> Entry {
        let accepted = worked.accepted();
        Entry {
            name: worked.name.clone(),
            accepted: accepted.map(Numbers::of),
            certified: match &worked.told {
                Told::Of(accepted) => certified(accepted),
                Told::Refused(refusal) => refusal.to_string(),
            },
        }
    }

    fn row(&self) -> String {
        let name = escaped(&shown_name(&self.name));
        let page = link(&file_of(&self.name, PAGE));
        let numbers = match &self.accepted {
            Some(numbers) => numbers.cells(),
            None => [(); 10].map(|()| String::from(NONE)),
        };
        let heading = format!("<a class=\"name\" href=\"{page}\">{name}</a>");
        row(&heading, &numbers, &escaped(&self.certified))
    }
}

/// A row of the table. Each cell has its column's heading as a label, for pages too narrow for columns.
fn row(heading: &str, numbers: &[String; 10], certified: &str) -> String {
    let cell = |(cell, (_, label)): (&String, &(_, &str))| {
        format!("<td data-label=\"{label}\">{cell}</td>")
    };
    let cells: String = numbers.iter().zip(&COLUMNS[1..]).map(cell).collect();
    format!(
        "<tr><th scope=\"row\">{heading}</th>{cells}<td class=\"words\" data-label=\"certified\">{certified}</td></tr>\n"
    )
}

impl Numbers {
    fn of(accepted: &Accepted) -> Numbers {
        let certified = accepted.certified.as_ref();
        Numbers {
            header: accepted.file.header.clone(),
            counts: Counts::of(&accepted.rows),
            sketch: match accepted.rows.is_empty() {
                true => String::from(NONE),
                false => sketch(&accepted.rows),
            },
            certified: certified.map_or(0, |of| of.found.certified() as u64),
        }
    }

    fn cells(&self) -> [String; 10] {
        let Counts {
            slots,
            arrived,
            dropped,
            form_peak,
            bench_peak,
            ..
        } = self.counts;
        [
            number(slots),
            self.header.last_window.to_string(),
            delay(self.header.delay),
            buffer(self.header.buffer),
            number(arrived),
            number(dropped),
            lost_of(dropped, arrived),
            number(form_peak),
            number(bench_peak),
            self.sketch.clone(),
        ]
    }
}

fn lost_of(lost: u64, arrived: u64) -> String {
    share(lost, arrived).unwrap_or_else(|| String::from(NONE))
}

/// How far an accepted stream is certified, or why it is not.
fn certified(accepted: &Accepted) -> String {
    let slots = accepted.rows.len();
    match &accepted.certified {
        None => String::from("no: both limits are none, and nothing is lost"),
        Some(_) if slots == 0 => String::from("no slots"),
        Some(certified) => match certified.found.certified() {
            all if all == slots => String::from("all slots"),
            some => format!("{some} of {slots} slots; the others' deadlines are after the last"),
        },
    }
}

/// What stands for a number that a stream has none of.
const NONE: &str = "-";

/// The columns, each with its class.
const COLUMNS: [(&str, &str); 12] = [
    ("", "stream"),
    ("", "slots"),
    ("", "L"),
    ("", "d"),
    ("", "q"),
    ("", "arrived"),
    ("", "lost"),
    ("", "lost of arrived, %"),
    ("", "form's peak"),
    ("", "bench's peak"),
    ("", "loss curve"),
    ("words", "certified"),
];

/// The page of all streams, beside this summary.
pub fn index(entries: &[&Entry], summary: &[u8]) -> String {
    let rows: String = entries.iter().map(|entry| entry.row()).collect();
    let caption = "The streams and what is lost of them";
    let table = format!(
        "<table class=\"streams\">\n<caption>{caption}</caption>\n{}<tbody>\n{rows}</tbody>\n<tfoot>\n{}</tfoot>\n</table>\n",
        headings(&COLUMNS),
        sums(entries)
    );
    let body = format!(
        "<main>\n<h1>Loss tables</h1>\n{}{KEY}{}{}</main>\n",
        introduction(),
        wide(caption, &table),
        files(summary)
    );
    document("Loss tables", &body)
}

/// What this is, that nobody could lose fewer, and how to check that.
fn introduction() -> String {
    let referee = linked(REFEREE.as_ref());
    format!(
        "<p>A loss table says for each slot of a stream how many packets arrived, were admitted, dropped \
         and let go, and how many were held, by a regulator that keeps an envelope, a delay limit and a \
         buffer limit. No other regulator that keeps them could have lost fewer packets by any slot that is \
         certified, even if it knew the whole stream in advance. To check that, run {referee} on a \
         stream, its table and its certificate, as each stream's page says, which needs nothing else of \
         ours, or <code>{}</code> for all of them at once, EDITION being this folder, which asks our proved \
         checker.</p>\n",
        checks::VERIFY
    )
}

const KEY: &str = "<p>L is the last window of the envelope's table and d the delay limit, both in slots; q \
    is the buffer limit in packets. The form's peak is the highest fill at a slot's end, the \
    bench's the highest before a slot's departures.</p>\n";

/// The sums over all streams that are accepted.
fn sums(entries: &[&Entry]) -> String {
    let accepted: Vec<&Numbers> = entries
        .iter()
        .filter_map(|of| of.accepted.as_ref())
        .collect();
    let sum = |of: fn(&Numbers) -> u64| accepted.iter().map(|numbers| of(numbers)).sum::<u64>();
    let (slots, certified) = (sum(|of| of.counts.slots), sum(|of| of.certified));
    let (arrived, lost) = (sum(|of| of.counts.arrived), sum(|of| of.counts.dropped));
    let all = counted(entries.len() as u64, "stream");
    let refused = match entries.len() - accepted.len() {
        0 => String::new(),
        refused => format!(", {refused} refused"),
    };
    let mut numbers = [(); 10].map(|()| String::new());
    numbers[0] = number(slots);
    numbers[4] = number(arrived);
    numbers[5] = number(lost);
    numbers[6] = lost_of(lost, arrived);
    let certified = format!("{} of {} slots", number(certified), number(slots));
    row(&format!("{all}{refused}"), &numbers, &certified)
}

/// The summary, by which all files can be told.
fn files(summary: &[u8]) -> String {
    let files = [(OsStr::new(SUMMARY), Sha256::of(summary))];
    let say = "The summary has the SHA-256 of every stream, table and certificate, so that its own stands \
               for all of them.";
    format!(
        "<h2 id=\"files\">Summary</h2>\n<p>{say}</p>\n{}",
        checks::files(&files)
    )
}
