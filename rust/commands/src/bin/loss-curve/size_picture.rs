//! The picture of sizes: what is lost by the last slot over the buffer limit, a line for each delay limit.

use std::fmt::Write;
use std::ops::RangeInclusive;

use commands::picture::axis::{Axis, shown};
use commands::picture::legend::Legend;
use commands::picture::page::{Anchor, Page, Pen};
use commands::picture::{FRAME, GRID, LEFT, LIMIT, RIGHT, WIDTH, cut, draw_packets};
use reference::layout::{NO_BUFFER, NO_DELAY};

use super::sizes::Losses;

/// Lines' colours, which differ for colour-blind readers and in print; no more lines are drawn.
const COLOURS: [&str; 7] = [
    "#0072B2", "#D55E00", "#009E73", "#E69F00", "#CC79A7", "#56B4E9", "#000000",
];
/// As many lines can be told apart.
pub const MOST_LINES: usize = COLOURS.len();
/// As many buffer limits have a point of the page each.
pub const MOST_POINTS: u32 = (RIGHT - LEFT) as u32;

const PANEL_HEIGHT: f64 = 300.0;
const FIRST_ROW: f64 = 54.0;
const ROW: f64 = 22.0;
/// The legend has two columns where its texts are short enough.
const COLUMN: f64 = (RIGHT - LEFT) / 2.0;

pub struct SizePicture {
    pub name: String,
    /// The stream's last slot, and its buffer limit.
    pub slots: usize,
    pub buffer: u32,
    pub buffers: RangeInclusive<u32>,
    /// One buffer limit in so many is worked.
    pub every: u32,
    pub lines: Vec<Losses>,
}

/// What the legend tells: a line's look, its words and a number.
type Entry = (Pen, String, i64);

impl SizePicture {
    pub fn drawn(&self) -> String {
        let entries = self.entries();
        let columns = if entries.iter().all(fits) { 2 } else { 1 };
        let top = FIRST_ROW + ROW * entries.len().div_ceil(columns) as f64;
        let bottom = top + PANEL_HEIGHT;
        let mut page = Page::new(WIDTH, bottom + 56.0, &self.title(), &self.described());
        page.write(LEFT, 28.0, Anchor::Start, &self.title());
        for (place, (pen, word, number)) in entries.iter().enumerate() {
            let x = LEFT + COLUMN * (place % columns) as f64;
            let y = FIRST_ROW + ROW * (place / columns) as f64;
            Legend::at(x, y).tell(&mut page, *pen, word, *number);
        }
        let up = self.frame(&mut page, top, bottom);
        for (line, (pen, _, _)) in self.lines.iter().zip(&entries) {
            page.path(&self.steps(line, &up), *pen);
        }
        if let Some(own) = self.own() {
            let x = self.across().place(own.into());
            page.line([x, top, x, bottom], LIMIT);
        }
        page.end()
    }

    /// Those of the lines, and that of the stream's own buffer limit.
    fn entries(&self) -> Vec<Entry> {
        let lines = self.lines.iter().enumerate().map(|(place, line)| {
            // Lines that lose alike lie on each other: each is thinner than the one before.
            let width = 1.5 + (self.lines.len() - 1 - place) as f64;
            let delay = match line.delay {
                NO_DELAY => String::from("no delay limit"),
                delay => format!("d = {delay}"),
            };
            let with = match line.level {
                true => shown(line.enough.into()) + " or more",
                false => shown((*self.buffers.end()).into()),
            };
            (
                Pen::new(COLOURS[place % MOST_LINES], width),
                format!("{delay}, lost with q = {with}"),
                line.least() as i64,
            )
        });
        let own = self.own();
        let own = own.map(|own| (LIMIT, String::from("q of the stream"), own.into()));
        lines.chain(own).collect()
    }

    /// The stream's own buffer limit, where it lies in the picture.
    fn own(&self) -> Option<u32> {
        let inside = self.buffer != NO_BUFFER && self.buffers.contains(&self.buffer);
        inside.then_some(self.buffer)
    }

    fn title(&self) -> String {
        let [first, last] = [self.buffers.start(), self.buffers.end()].map(|q| shown((*q).into()));
        let (name, slots) = (cut(&self.name), shown(self.slots as i64));
        format!(
            "{name}, lost by slot {slots}, the last; buffer limit q = {first} to {last} packets"
        )
    }

    fn described(&self) -> String {
        let (first, last) = (self.buffers.start(), self.buffers.end());
        let mut text = format!(
            "Packets lost by slot {}, the last, over the buffer limit, a line for each delay limit.",
            self.slots
        );
        for line in &self.lines {
            let (most, least, enough) = (line.most(), line.least(), line.enough);
            let delay = match line.delay {
                NO_DELAY => String::from("no delay limit"),
                delay => format!("delay limit {delay}"),
            };
            // Writing to a string does not fail.
            let _ = write!(
                text,
                " With {delay}: {most} lost with buffer {first}, {least} with {last}; {enough} is the smallest of these that loses as few."
            );
        }
        if self.every > 1 {
            let _ = write!(text, " One buffer limit in {} is worked.", self.every);
        }
        text
    }

    fn across(&self) -> Axis {
        Axis::of_limits(*self.buffers.start(), *self.buffers.end(), LEFT, RIGHT)
    }

    fn frame(&self, page: &mut Page, top: f64, bottom: f64) -> Axis {
        let across = self.across();
        let values = self.lines.iter().flat_map(|line| &line.lost);
        let values = values.map(|(_, lost)| *lost as i64).chain([0]);
        let up = Axis::of(values, bottom, top);
        draw_packets(page, &up, [LEFT, RIGHT]);
        for buffer in self.labelled(&across) {
            let x = across.place(buffer as f64);
            page.line([x, top, x, bottom + 5.0], GRID);
            page.write(x, bottom + 18.0, Anchor::Middle, &shown(buffer));
        }
        page.path(&format!("M{LEFT} {top}V{bottom}H{RIGHT}"), FRAME);
        page.write_upwards(24.0, (top + bottom) / 2.0, "packets lost");
        let middle = (LEFT + RIGHT) / 2.0;
        page.write(
            middle,
            bottom + 44.0,
            Anchor::Middle,
            "buffer limit q, packets",
        );
        up
    }

    /// The first buffer limit, and round numbers that leave it room.
    fn labelled(&self, across: &Axis) -> Vec<i64> {
        let (first, last) = (*self.buffers.start(), i64::from(*self.buffers.end()));
        let room = |q: &i64| *q <= last && across.place(*q as f64) - LEFT > 36.0;
        let round = across.ticks(12).filter(room);
        [first.into()].into_iter().chain(round).collect()
    }

    /// What a buffer limit loses over its stretch.
    fn steps(&self, line: &Losses, up: &Axis) -> String {
        let across = self.across();
        let place = |lost: u64| format!("{:.1}", up.place(lost as f64));
        let mut before = line.most();
        let mut steps = format!("M{LEFT} {}", place(before));
        for &(buffer, lost) in &line.lost {
            if lost != before {
                // Writing to a string does not fail.
                let _ = write!(steps, "H{:.1}V{}", across.place(buffer.into()), place(lost));
                before = lost;
            }
        }
        steps + &format!("H{RIGHT}")
    }
}

fn fits((_, word, number): &Entry) -> bool {
    Legend::room(word, *number) <= COLUMN
}
