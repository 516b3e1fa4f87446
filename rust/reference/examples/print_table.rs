//! Reads one stream file from standard input and prints its table as the reference works it out.

use std::io::{self, Read, Write};

fn main() -> io::Result<()> {
    let mut file = Vec::new();
    io::stdin().read_to_end(&mut file)?;
    io::stdout().write_all(reference::text::printed(&file).as_bytes())
}
