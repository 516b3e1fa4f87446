//! Pages to read the tables on: one that lists all streams, and one for each. Nothing in them comes from
//! elsewhere or tells when they were written.

mod checks;
mod envelope;
mod html;
mod index;
mod rows;
mod sketch;
mod stream_page;
mod words;

pub use html::BEGINS;
pub use index::{Entry, index};
pub use stream_page::of_stream;

/// What checks a table without anything else of ours stands beside the pages.
pub const REFEREE: &str = "referee.py";
pub const REFEREE_TEXT: &str = include_str!("../../../../../referee/referee.py");
pub const REFEREE_BEGINS: &str = "#!/usr/bin/env python3\n\"\"\"usage: referee.py ";
