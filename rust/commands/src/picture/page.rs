//! A page of SVG: lines, paths and text, nothing else.

use std::fmt::Write;

use crate::markup::escaped;

/// Where a text stands beside its place.
#[derive(Clone, Copy, Debug)]
pub enum Anchor {
    Start,
    Middle,
    End,
}

/// A line's look.
#[derive(Clone, Copy, Debug)]
pub struct Pen {
    pub colour: &'static str,
    pub width: f64,
    pub dashed: bool,
}

impl Pen {
    pub const fn new(colour: &'static str, width: f64) -> Pen {
        Pen {
            colour,
            width,
            dashed: false,
        }
    }

    pub const fn dashed(self) -> Pen {
        Pen {
            dashed: true,
            ..self
        }
    }
}

pub struct Page {
    text: String,
}

impl Page {
    /// A white page of this size in points, with a title and a description for those who hear it.
    pub fn new(width: f64, height: f64, title: &str, described: &str) -> Page {
        let (title, described) = (escaped(title), escaped(described));
        let text = format!(
            "<svg xmlns=\"http://www.w3.org/2000/svg\" width=\"{width}\" height=\"{height}\" \
             viewBox=\"0 0 {width} {height}\" role=\"img\">\n\
             <title>{title}</title>\n\
             <desc>{described}</desc>\n\
             <g font-family=\"Helvetica, Arial, 'DejaVu Sans', sans-serif\" font-size=\"13\">\n\
             <rect width=\"{width}\" height=\"{height}\" fill=\"white\"/>\n"
        );
        Page { text }
    }

    pub fn line(&mut self, [x1, y1, x2, y2]: [f64; 4], pen: Pen) {
        let steps = format!("M{x1:.1} {y1:.1}L{x2:.1} {y2:.1}");
        self.path(&steps, pen);
    }

    pub fn path(&mut self, steps: &str, pen: Pen) {
        let (colour, width) = (pen.colour, pen.width);
        let dashes = if pen.dashed {
            " stroke-dasharray=\"6 3\""
        } else {
            ""
        };
        self.put(&format!(
            "<path d=\"{steps}\" fill=\"none\" stroke=\"{colour}\" stroke-width=\"{width}\"{dashes}/>"
        ));
    }

    pub fn write(&mut self, x: f64, y: f64, anchor: Anchor, text: &str) {
        let anchor = match anchor {
            Anchor::Start => "start",
            Anchor::Middle => "middle",
            Anchor::End => "end",
        };
        let text = escaped(text);
        self.put(&format!(
            "<text x=\"{x:.1}\" y=\"{y:.1}\" text-anchor=\"{anchor}\">{text}</text>"
        ));
    }

    /// A text that reads upwards around its place.
    pub fn write_upwards(&mut self, x: f64, y: f64, text: &str) {
        let text = escaped(text);
        self.put(&format!(
            "<text transform=\"translate({x:.1} {y:.1}) rotate(-90)\" text-anchor=\"middle\">{text}</text>"
        ));
    }

    fn put(&mut self, line: &str) {
        // Writing to a string does not fail.
        let _ = writeln!(self.text, "{line}");
    }

    pub fn end(mut self) -> String {
        self.put("</g>\n</svg>");
        self.text
    }
}
