//! The picture of a stream: three panels over the same slots. Colours are those of Okabe and Ito, which
//! differ for colour-blind readers and in print; a rival's curves are dashed.

pub mod axis;
pub mod curves;
pub mod legend;
pub mod page;

use std::fmt::Write;
use std::ops::RangeInclusive;

use reference::layout::{NO_BUFFER, NO_DELAY};

use axis::{Axis, shown};
use curves::{Curve, Curves};
use legend::Legend;
use page::{Anchor, Page, Pen};

pub const WIDTH: f64 = 900.0;
const HEIGHT: f64 = 770.0;
pub const LEFT: f64 = 90.0;
pub const RIGHT: f64 = WIDTH - 25.0;

/// Curves lie on each other where nothing waits and nothing is lost: each is thinner than the one
/// that it lies on.
const ARRIVED: Pen = Pen::new("#000000", 1.0);
const ADMITTED: Pen = Pen::new("#0072B2", 2.0);
const DEPARTED: Pen = Pen::new("#E69F00", 4.0);
pub const LOST: Pen = Pen::new("#D55E00", 2.0);
const FILL: Pen = Pen::new("#009E73", 1.5);
const MARK: Pen = Pen::new("#D55E00", 1.4);
pub const LIMIT: Pen = Pen::new("#000000", 1.0);
pub const FRAME: Pen = Pen::new("#666666", 1.0);
pub const GRID: Pen = Pen::new("#DDDDDD", 0.8);

/// The fill goes up and down. Where a slot has less than a point of the page, it is drawn as the
/// highest of as many slots as have so many points.
const COARSE: f64 = 6.0;
/// As much of a file's name is told.
const NAME: usize = 36;

/// A curve, its name and its pen.
type Kind = (fn(&Curves) -> &Curve, &'static str, Pen);

pub struct Picture {
    pub name: String,
    pub delay: u32,
    pub buffer: u32,
    pub slots: RangeInclusive<usize>,
    pub ours: Curves,
    /// A rival's rows by their name.
    pub rival: Option<(String, Curves)>,
}

/// A panel's name for its axis, and from where to where it reaches down the page.
struct Panel {
    label: &'static str,
    top: f64,
    bottom: f64,
}

impl Panel {
    fn legend(&self) -> Legend {
        Legend::at(LEFT, self.top - 22.0)
    }
}

const TOTALS: Panel = Panel {
    label: "packets in all",
    top: 104.0,
    bottom: 364.0,
};
const LOSS: Panel = Panel {
    label: "packets lost",
    top: 424.0,
    bottom: 554.0,
};
const FILLED: Panel = Panel {
    label: "packets waiting",
    top: 600.0,
    bottom: 714.0,
};

impl Picture {
    pub fn drawn(&self) -> String {
        let mut page = Page::new(WIDTH, HEIGHT, &self.title(), &self.described());
        page.write(LEFT, 28.0, Anchor::Start, &self.title());
        self.draw_totals(&mut page);
        self.draw_loss(&mut page);
        self.draw_fill(&mut page);
        page.write((LEFT + RIGHT) / 2.0, HEIGHT - 12.0, Anchor::Middle, "slot");
        page.end()
    }

    fn title(&self) -> String {
        let (first, last) = (self.slots.start(), self.slots.end());
        let delay = match self.delay {
            NO_DELAY => String::from("no delay limit"),
            1 => String::from("delay limit d = 1 slot"),
            delay => format!("delay limit d = {delay} slots"),
        };
        let buffer = match self.buffer {
            NO_BUFFER => String::from("no buffer limit"),
            buffer => format!("buffer limit q = {} packets", shown(buffer.into())),
        };
        let [first, last] = [first, last].map(|slot| shown(*slot as i64));
        let name = cut(&self.name);
        let dashed = self.rival.as_ref();
        let dashed = dashed.map_or(String::new(), |(name, _)| {
            format!("; dashed: {}", cut(name))
        });
        format!("{name}, slots {first} to {last}; {delay}, {buffer}{dashed}")
    }

    fn described(&self) -> String {
        let ours = &self.ours;
        format!(
            "Packets arrived, admitted and departed by each slot, packets lost by each slot, and packets waiting in it before its departures. By slot {}: {} arrived, {} admitted, {} departed, {} lost.",
            self.slots.end(),
            ours.arrived.last(),
            ours.admitted.last(),
            ours.departed.last(),
            ours.lost.last(),
        )
    }

    /// Our curve of a kind and, where there is one, the rival's.
    fn both(&self, of: fn(&Curves) -> &Curve) -> impl Iterator<Item = &Curve> {
        let rival = self.rival.as_ref().map(|(_, curves)| curves);
        [Some(&self.ours), rival].into_iter().flatten().map(of)
    }

    fn across(&self) -> Axis {
        Axis::of_slots(*self.slots.start(), *self.slots.end(), LEFT, RIGHT)
    }

    /// The panel's frame, and its lines at round numbers of packets and slots, with their labels.
    fn frame(&self, page: &mut Page, panel: &Panel, values: impl Iterator<Item = i64>) -> Axis {
        let Panel { label, top, bottom } = *panel;
        let (across, up) = (self.across(), Axis::of(values, bottom, top));
        draw_packets(page, &up, [LEFT, RIGHT]);
        for slot in self.labelled_slots(&across) {
            let x = across.place(slot as f64 - 0.5);
            page.line([x, top, x, bottom + 5.0], GRID);
            if bottom == FILLED.bottom {
                page.write(x, bottom + 18.0, Anchor::Middle, &shown(slot));
            }
        }
        page.path(&format!("M{LEFT} {top}V{bottom}H{RIGHT}"), FRAME);
        page.write_upwards(24.0, (top + bottom) / 2.0, label);
        up
    }

    /// The first slot, and round numbers that leave it room.
    fn labelled_slots(&self, across: &Axis) -> Vec<i64> {
        let first = *self.slots.start() as i64;
        let room = |slot: &i64| across.place(*slot as f64) - across.place(first as f64) > 36.0;
        let round = across.ticks(12).filter(room);
        [first].into_iter().chain(round).collect()
    }

    fn steps(&self, curve: &Curve, up: &Axis) -> String {
        steps(curve, 1, &self.across(), up)
    }

    fn draw_totals(&self, page: &mut Page) {
        let kinds: [Kind; 3] = [
            (|of| &of.arrived, "arrived", ARRIVED),
            (|of| &of.admitted, "admitted", ADMITTED),
            (|of| &of.departed, "departed", DEPARTED),
        ];
        let values = kinds.iter().flat_map(|(of, _, _)| self.both(*of));
        let up = self.frame(page, &TOTALS, values.flat_map(Curve::all));
        let mut legend = TOTALS.legend();
        if self.rival.is_some() {
            legend = Legend::at(LEFT, TOTALS.top - 42.0);
        }
        for (of, word, pen) in &kinds {
            legend.tell(page, *pen, word, of(&self.ours).last());
        }
        for (of, _, pen) in kinds.iter().rev() {
            page.path(&self.steps(of(&self.ours), &up), *pen);
        }
        if let Some((_, rival)) = &self.rival {
            let mut legend = TOTALS.legend();
            for (of, word, pen) in &kinds[1..] {
                let word = format!("rival {word}");
                legend.tell(page, pen.dashed(), &word, of(rival).last());
            }
            for (of, _, pen) in kinds[1..].iter().rev() {
                page.path(&self.steps(of(rival), &up), pen.dashed());
            }
        }
    }

    fn draw_loss(&self, page: &mut Page) {
        let up = self.frame(page, &LOSS, self.both(|of| &of.lost).flat_map(Curve::all));
        let mut legend = LOSS.legend();
        page.path(&self.steps(&self.ours.lost, &up), LOST);
        legend.tell(
            page,
            LOST,
            "lost, arrived less admitted",
            self.ours.lost.last(),
        );
        if let Some((_, rival)) = &self.rival {
            page.path(&self.steps(&rival.lost, &up), LOST.dashed());
            legend.tell(page, LOST.dashed(), "rival lost", rival.lost.last());
        }
        self.mark_drops(page, &mut legend);
    }

    /// A short line above each slot in which packets were dropped; those on one place are one.
    fn mark_drops(&self, page: &mut Page, legend: &mut Legend) {
        let across = self.across();
        let first = *self.slots.start() as f64;
        let dropped = self.ours.lost.rises();
        let mut marks: Vec<String> = dropped
            .iter()
            .map(|place| across.place(first + *place as f64 - 0.5))
            .map(|x| format!("M{x:.0} {}v9", LOSS.top - 10.0))
            .collect();
        marks.dedup();
        page.path(&marks.concat(), MARK);
        legend.tell_mark(
            page,
            MARK,
            "slots with dropped packets",
            dropped.len() as i64,
        );
    }

    fn draw_fill(&self, page: &mut Page) {
        let limit = (self.buffer != NO_BUFFER).then_some(i64::from(self.buffer));
        let highest = self.both(|of| &of.fill).map(Curve::highest).max();
        // A limit that is never near would leave the fill flat.
        let near = limit.filter(|limit| *limit <= 4 * highest.unwrap_or(0).max(1));
        let values = self.both(|of| &of.fill);
        let values = values.flat_map(|fill| fill.values.iter().copied());
        let up = self.frame(page, &FILLED, values.chain([0]).chain(near));
        let point = (RIGHT - LEFT) / self.ours.fill.values.len() as f64;
        let (slots, highest) = match point {
            1.0.. => (1, String::from("highest")),
            _ => {
                let slots = (COARSE / point).ceil() as usize;
                (slots, format!("highest of each {slots} slots"))
            }
        };
        let mut legend = FILLED.legend();
        let mut draw = |fill: &Curve, pen: Pen, word: &str| {
            let coarse = fill.highest_of(slots);
            page.path(&steps(&coarse, slots, &self.across(), &up), pen);
            legend.tell(page, pen, word, fill.highest());
        };
        let word = format!("fill before departures, {highest}");
        draw(&self.ours.fill, FILL, &word);
        if let Some((_, rival)) = &self.rival {
            draw(&rival.fill, FILL.dashed(), "rival fill, highest");
        }
        if let Some(limit) = limit {
            let y = up.place(limit as f64);
            let word = match near {
                Some(_) => "q",
                None => "q, above the picture",
            };
            if near.is_some() {
                page.line([LEFT, y, RIGHT, y], LIMIT);
                page.write(RIGHT + 5.0, y + 4.5, Anchor::Start, "q");
            }
            legend.tell(page, LIMIT, word, limit);
        }
    }
}

/// Lines at round numbers of packets, with their labels.
pub fn draw_packets(page: &mut Page, up: &Axis, [left, right]: [f64; 2]) {
    for packets in up.ticks(5) {
        let y = up.place(packets as f64);
        page.line([left, y, right, y], GRID);
        page.write(left - 8.0, y + 4.5, Anchor::End, &shown(packets));
    }
}

/// A curve of steps over an axis of slots: a value over the stretch of so many slots each.
pub fn steps(curve: &Curve, slots: usize, across: &Axis, up: &Axis) -> String {
    let first = across.first();
    let place = |value: i64| format!("{:.1}", up.place(value as f64));
    let mut steps = format!("M{:.1} {}", across.place(first), place(curve.before));
    let mut value = curve.before;
    for (place_of, &next) in curve.values.iter().enumerate() {
        if next != value {
            // Writing to a string does not fail.
            let _ = write!(
                steps,
                "H{:.1}V{}",
                across.place(first + (place_of * slots) as f64),
                place(next)
            );
            value = next;
        }
    }
    steps + &format!("H{}", across.end())
}

/// The beginning of a name that is too long.
pub fn cut(name: &str) -> String {
    match name.char_indices().nth(NAME) {
        Some((end, _)) => format!("{}\u{2026}", &name[..end]),
        None => name.to_owned(),
    }
}
