//! A stream's set-up: its limits, and its table's entries drawn and listed, closed where the closure lies
//! below them.

use bezhantiru::Refusal;
use commands::picture::axis::{Axis, shown};
use commands::picture::curves::Curve;
use commands::picture::legend::Legend;
use commands::picture::page::{Anchor, Page, Pen};
use commands::picture::{FRAME, GRID, draw_packets, steps};
use commands::pieces::Pieces;
use reference::layout::StreamFile;

use super::html::{figure, headings, wide};
use super::words::{buffer, counted, delay, number};

const WIDTH: f64 = 560.0;
const HEIGHT: f64 = 320.0;
const LEFT: f64 = 84.0;
const RIGHT: f64 = WIDTH - 16.0;
const TOP: f64 = 40.0;
const BOTTOM: f64 = HEIGHT - 56.0;

/// Both lie on each other where the table is closed, so that the one above is thinner.
const CLOSED: Pen = Pen::new("#E69F00", 5.0);
const TABLE: Pen = Pen::new("#000000", 1.4);

/// The section, or the library's refusal of the table.
pub fn set_up(file: &StreamFile) -> Result<String, Refusal> {
    let windows = 0..=file.header.last_window;
    let closed: Result<Vec<Pieces>, Refusal> = windows
        .map(|window| Pieces::of(&file.table, window))
        .collect();
    let closed = closed?;
    let caption = "The envelope: packets that may depart in a window of so many slots, by the table \
                   and closed.";
    Ok(format!(
        "<h2 id=\"set-up\">Set-up</h2>\n<p>{}</p>\n<div class=\"beside\">\n{}{}</div>\n",
        sentences(file, &closed),
        figure(&drawn(file, &closed), caption),
        listed(file, &closed)
    ))
}

fn sentences(file: &StreamFile, closed: &[Pieces]) -> String {
    let last = file.header.last_window;
    let below = below(file, closed).count() as u64;
    let closing = match below {
        0 => String::from("The table is closed: no entry is above a sum of others."),
        below => format!(
            "At {} the closure lies below the table: there other entries add up to less.",
            counted(below, "window")
        ),
    };
    format!(
        "The table ends with window L = {last}; delay limit d = {}, buffer limit q = {}. {closing} \
         f(k) is the least sum of entries whose windows add up to k.",
        delay(file.header.delay),
        buffer(file.header.buffer)
    )
}

/// Windows at which the closure is below the table's entry.
fn below<'a>(file: &'a StreamFile, closed: &'a [Pieces]) -> impl Iterator<Item = &'a Pieces> {
    let pairs = file.table.iter().zip(closed);
    let below = pairs.filter(|(entry, closed)| closed.packets < u64::from(**entry));
    below.map(|(_, closed)| closed)
}

/// f at a window and the entries that make it up, those that follow each other together.
fn summed(closed: &Pieces) -> String {
    let alike = closed.pieces.chunk_by(|one, next| one == next);
    let entries: Vec<String> = alike
        .map(|alike| match alike.len() {
            1 => format!("table({})", alike[0]),
            times => format!("{times} × table({})", alike[0]),
        })
        .collect();
    let (window, packets) = (closed.window, number(closed.packets));
    format!("f({window}) = {packets} = {}", entries.join(" + "))
}

/// The table, with a column for sums where some entry is above one.
fn listed(file: &StreamFile, closed: &[Pieces]) -> String {
    let closes = below(file, closed).next().is_some();
    let mut rows = String::new();
    for (entry, closed) in file.table.iter().zip(closed) {
        let sum = match closed.packets < u64::from(*entry) {
            true => summed(closed),
            false => String::new(),
        };
        let sum = match closes {
            true => format!("<td class=\"words\">{sum}</td>"),
            false => String::new(),
        };
        let (window, packets) = (closed.window, number((*entry).into()));
        rows += &format!("<tr><th scope=\"row\">{window}</th><td>{packets}</td>{sum}</tr>\n");
    }
    let columns = [
        ("", "window, slots"),
        ("", "table, packets"),
        ("words", "closed, where less"),
    ];
    let caption = "Entries of the table";
    let table = format!(
        "<table>\n<caption>{caption}</caption>\n{}<tbody>\n{rows}</tbody>\n</table>\n",
        headings(&columns[..2 + usize::from(closes)])
    );
    wide(caption, &table)
}

fn drawn(file: &StreamFile, closed: &[Pieces]) -> String {
    let last = file.header.last_window;
    let curve = |values: Vec<i64>| Curve { before: 0, values };
    let table = curve(file.table.iter().map(|entry| i64::from(*entry)).collect());
    let closed = curve(closed.iter().map(|of| of.packets as i64).collect());
    let title = format!("The table and its closure f, windows 0 to {last}");
    let described = format!(
        "In window {last} the table has {} and f is {}.",
        counted(table.last() as u64, "packet"),
        number(closed.last() as u64)
    );
    let mut page = Page::new(WIDTH, HEIGHT, &title, &described);
    let across = Axis::of_slots(0, last as usize, LEFT, RIGHT);
    let up = Axis::of(table.all(), BOTTOM, TOP);
    draw_packets(&mut page, &up, [LEFT, RIGHT]);
    for window in across.ticks(10).filter(|window| *window >= 0) {
        let x = across.place(window as f64 - 0.5);
        page.line([x, TOP, x, BOTTOM + 5.0], GRID);
        page.write(x, BOTTOM + 18.0, Anchor::Middle, &shown(window));
    }
    page.path(&format!("M{LEFT} {TOP}V{BOTTOM}H{RIGHT}"), FRAME);
    let mut legend = Legend::at(LEFT, TOP - 16.0);
    for (curve, word, pen) in [(&closed, "f", CLOSED), (&table, "table", TABLE)] {
        page.path(&steps(curve, 1, &across, &up), pen);
        legend.tell(&mut page, pen, &format!("{word}({last})"), curve.last());
    }
    page.write_upwards(20.0, (TOP + BOTTOM) / 2.0, "packets");
    let middle = (LEFT + RIGHT) / 2.0;
    page.write(middle, HEIGHT - 14.0, Anchor::Middle, "window, slots");
    page.end()
}
