//! Samples of lines and what they are, in a row above a panel.

use super::axis::shown;
use super::page::{Anchor, Page, Pen};

/// Where a text stands beside the sample of its line.
const BESIDE_LINE: f64 = 32.0;

pub struct Legend {
    x: f64,
    y: f64,
}

impl Legend {
    /// The row that begins there.
    pub fn at(x: f64, y: f64) -> Legend {
        Legend { x, y }
    }

    pub fn tell(&mut self, page: &mut Page, pen: Pen, word: &str, packets: i64) {
        page.line([self.x, self.y - 4.0, self.x + 26.0, self.y - 4.0], pen);
        self.write(page, BESIDE_LINE, word, packets);
    }

    pub fn tell_mark(&mut self, page: &mut Page, pen: Pen, word: &str, count: i64) {
        page.line([self.x + 5.0, self.y - 9.0, self.x + 5.0, self.y], pen);
        self.write(page, 14.0, word, count);
    }

    fn write(&mut self, page: &mut Page, beside: f64, word: &str, number: i64) {
        let text = text(word, number);
        page.write(self.x + beside, self.y, Anchor::Start, &text);
        self.x += beside + width(&text);
    }

    /// As much room as a line's sample and its text take.
    pub fn room(word: &str, packets: i64) -> f64 {
        BESIDE_LINE + width(&text(word, packets))
    }
}

fn text(word: &str, number: i64) -> String {
    format!("{word}: {}", shown(number))
}

/// Half of the letters' height is wide enough for each of them, on average; and some room to the next.
fn width(text: &str) -> f64 {
    6.8 * text.chars().count() as f64 + 14.0
}
