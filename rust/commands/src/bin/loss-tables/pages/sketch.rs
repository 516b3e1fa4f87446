//! A stream's loss curve, small enough for a row of the index.

use commands::picture::axis::Axis;
use commands::picture::curves::Curves;
use commands::picture::page::Page;
use commands::picture::{FRAME, LOST, steps};
use commands::table::Row;

use super::words::counted;

const WIDTH: usize = 120;
const HEIGHT: f64 = 32.0;
/// Room for half of a line's width.
const EDGE: f64 = 2.0;

/// The packets lost by each slot, or by as many slots as have a point of the page.
pub fn sketch(rows: &[Row]) -> String {
    let lost = Curves::of_table(rows, &(1..=rows.len())).lost;
    let title = format!(
        "Loss curve: {} lost by slot {}",
        counted(lost.last() as u64, "packet"),
        rows.len()
    );
    let first = lost.rises().first().map(|place| place + 1);
    let described = first.map_or(String::from("None is lost."), |slot| {
        format!("The first are lost in slot {slot}.")
    });
    let mut page = Page::new(WIDTH as f64, HEIGHT, &title, &described);
    let (right, bottom) = (WIDTH as f64 - EDGE, HEIGHT - EDGE);
    page.line([EDGE, bottom, right, bottom], FRAME);
    let slots = rows.len().div_ceil(WIDTH).max(1);
    let coarse = lost.highest_of(slots);
    let across = Axis::of_slots(1, coarse.values.len() * slots, EDGE, right);
    let up = Axis::of(coarse.all(), bottom, EDGE);
    page.path(&steps(&coarse, slots, &across, &up), LOST);
    page.end()
}
