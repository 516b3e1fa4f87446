//! From the numbers of a stream file to text.

use reference::layout::{NO_BUFFER, NO_DELAY, StreamFile};

/// The text of a file whose header counts its own lists.
pub fn show(file: &StreamFile) -> String {
    let entries: Vec<String> = file.table.iter().map(u32::to_string).collect();
    let mut text = format!(
        "table {}\ndelay {}\nbuffer {}\nslots {}\n",
        entries.join(" "),
        limit(file.header.delay, NO_DELAY),
        limit(file.header.buffer, NO_BUFFER),
        file.header.slots,
    );
    for (slot, count) in file.burst_slots.iter().zip(&file.burst_counts) {
        text += &format!("{slot} {count}\n");
    }
    text
}

fn limit(number: u32, none: u32) -> String {
    if number == none {
        String::from("none")
    } else {
        number.to_string()
    }
}
