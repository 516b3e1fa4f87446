//! The printing program in Rust: a stream file's table, or the refusal, written in one piece.

use bezhantiru::Record;

use crate::quick::{Refused, Regulator, form_fill};

const HEADER_BYTES: usize = 20;
const MOST_WINDOWS: usize = 64;
const MOST_SLOTS: usize = 4_096;
const MOST_PACKETS: u32 = 1_000_000;
/// Enough for most lines, so that the text seldom moves while it grows.
const LINE_BYTES: usize = 32;

/// What the program prints for a file.
pub fn printed(file: &[u8]) -> Vec<u8> {
    table(file).unwrap_or_else(|number| format!("refused {number}\n").into_bytes())
}

fn table(file: &[u8]) -> Result<Vec<u8>, Refused> {
    let (numbers, _) = file.as_chunks::<4>();
    let header = numbers.get(..HEADER_BYTES / 4).ok_or(12_u32)?;
    let [last_window, slots, bursts] = [0, 1, 2].map(|place| number(&header[place]) as usize);
    if !(1..=MOST_WINDOWS).contains(&last_window) {
        return Err(1);
    }
    if slots.max(bursts) > MOST_SLOTS {
        return Err(10);
    }
    if file.len() != HEADER_BYTES + 4 * (last_window + 1) + 8 * bursts {
        return Err(13);
    }
    let (entries, rest) = numbers[header.len()..].split_at(last_window + 1);
    let (burst_slots, burst_counts) = rest.split_at(bursts);
    let entries: Vec<u32> = entries.iter().map(number).collect();
    let regulator = Regulator::of_file(&entries, number(&header[3]), number(&header[4]))?;
    check_bursts(burst_slots, burst_counts, slots)?;
    lines(regulator, slots, burst_slots, burst_counts)
}

fn number(bytes: &[u8; 4]) -> u32 {
    u32::from_le_bytes(*bytes)
}

fn check_bursts(slots: &[[u8; 4]], counts: &[[u8; 4]], last: usize) -> Result<(), Refused> {
    let mut before = 0;
    for slot in slots.iter().map(number) {
        if slot <= before || slot as usize > last {
            return Err(14);
        }
        before = slot;
    }
    let too_many = counts.iter().any(|count| number(count) > MOST_PACKETS);
    if too_many { Err(8) } else { Ok(()) }
}

fn lines(
    mut regulator: Regulator,
    slots: usize,
    burst_slots: &[[u8; 4]],
    burst_counts: &[[u8; 4]],
) -> Result<Vec<u8>, Refused> {
    let mut text = Vec::with_capacity(LINE_BYTES * (slots + 3));
    text.extend_from_slice(b"slot arrived admitted dropped departed held\n");
    let mut bursts = burst_slots.iter().zip(burst_counts).peekable();
    let mut total = Record {
        held_before: 0,
        admitted: 0,
        dropped: 0,
        departed: 0,
    };
    for slot in 1..=slots {
        let named = bursts.next_if(|(named, _)| number(named) as usize == slot);
        let arrivals = named.map_or(0, |(_, count)| u64::from(number(count)));
        let record = regulator.slot(arrivals)?;
        push_number(&mut text, slot as u64);
        push_counts(&mut text, &record);
        total.admitted += record.admitted;
        total.dropped += record.dropped;
        total.departed += record.departed;
    }
    text.extend_from_slice(b"total");
    push_counts(&mut text, &total);
    Ok(text)
}

/// The counts of a slot, or of all slots together. Arrived is admitted and dropped together.
fn push_counts(text: &mut Vec<u8>, record: &Record) {
    let (admitted, dropped, departed) = (record.admitted, record.dropped, record.departed);
    let held = form_fill(record);
    for count in [admitted + dropped, admitted, dropped, departed, held] {
        text.push(b' ');
        push_number(text, count);
    }
    text.push(b'\n');
}

/// Base ten, from the last digit to the first.
fn push_number(text: &mut Vec<u8>, mut number: u64) {
    let mut digits = [0; 20];
    let mut first = digits.len();
    loop {
        first -= 1;
        digits[first] = b'0' + (number % 10) as u8;
        number /= 10;
        if number == 0 {
            break;
        }
    }
    text.extend_from_slice(&digits[first..]);
}
