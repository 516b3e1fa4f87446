//! What is refused, by place and in order. Document 01, "Refused, by place", and the answers of
//! document 02's requests.
//!
//! Each function checks one place and ends with the first condition that is met.

use std::fmt;

use crate::layout::{Header, NO_BUFFER, NO_DELAY, numbers};
use crate::square::{LAST_SLOT, Square};

/// The last window of the longest table.
pub const MOST_WINDOWS: u64 = 64;
/// The most packets in a table entry, a buffer or a slot.
pub const MOST_PACKETS: u64 = 1_000_000;
/// The last window that the envelope part answers.
pub const LAST_QUESTION: u64 = 4_160;
/// The longest delay limit that is a number.
pub const MOST_DELAY: u64 = 64;
/// The most slots that a live regulator takes.
pub const MOST_LIVE_SLOTS: u64 = 1_000_000;
/// The most slots of a trace, and the most bursts of a file.
pub const MOST_TRACE_SLOTS: u64 = 4_096;
/// The most buckets of a profile, and the most stages of a path.
pub const MOST_BUCKETS: usize = 4;
pub const MOST_STAGES: usize = 4;
/// The most streams of a port, the most slots of its runs and the longest deadline of a stream.
pub const MOST_STREAMS: usize = 8;
pub const MOST_PORT_SLOTS: u64 = 256;
pub const MOST_DEADLINE: u64 = 64;
/// The most slots of a short trace.
pub const MOST_SHORT_SLOTS: u64 = 5;

#[derive(Clone, Copy, Debug, PartialEq, Eq)]
pub enum Refusal {
    WindowsOutOfRange = 1,
    FirstEntryNotZero = 2,
    EntryTooLarge = 3,
    EntryFalls = 4,
    WindowTooLong = 5,
    DelayOutOfRange = 6,
    BufferOutOfRange = 7,
    TooManyArrivals = 8,
    SlotsUsedUp = 9,
    TraceTooLong = 10,
    ListOfOtherLength = 11,
    FileWithoutHeader = 12,
    FileOfOtherLength = 13,
    BurstSlotOutOfOrder = 14,
    BucketsOutOfRange = 15,
    BucketTooLarge = 16,
    StagesOutOfRange = 17,
    SlotBeyondTrace = 18,
    EntryUpToDiagonal = 19,
    TraceBeyondSquare = 20,
    PortOutOfRange = 21,
    DeadlineTooLong = 22,
    BothLimitsNone = 23,
    ShortTraceTooLong = 24,
}

impl Refusal {
    /// The number in the document's table.
    pub fn number(self) -> u8 {
        self as u8
    }
}

impl fmt::Display for Refusal {
    fn fmt(&self, out: &mut fmt::Formatter<'_>) -> fmt::Result {
        write!(out, "refused {}", self.number())
    }
}

impl std::error::Error for Refusal {}

fn refuse_if(condition: bool, refusal: Refusal) -> Result<(), Refusal> {
    if condition { Err(refusal) } else { Ok(()) }
}

/// Table: 1, 2, then the entries. A table without entries counts as L out of range, which 0 is.
pub fn table(table: &[u64]) -> Result<(), Refusal> {
    windows((table.len() as u64).saturating_sub(1))?;
    entries(table)
}

fn windows(last_window: u64) -> Result<(), Refusal> {
    let in_range = (1..=MOST_WINDOWS).contains(&last_window);
    refuse_if(!in_range, Refusal::WindowsOutOfRange)
}

/// 2, then entries from window 1 on, at each 3 before 4.
fn entries(table: &[u64]) -> Result<(), Refusal> {
    refuse_if(table[0] != 0, Refusal::FirstEntryNotZero)?;
    rising(table)
}

/// Numbers after a first one that is 0, at each 3 before 4.
fn rising(numbers: &[u64]) -> Result<(), Refusal> {
    for pair in numbers.windows(2) {
        refuse_if(pair[1] > MOST_PACKETS, Refusal::EntryTooLarge)?;
        refuse_if(pair[1] < pair[0], Refusal::EntryFalls)?;
    }
    Ok(())
}

/// Envelope question: 5, its table being accepted.
pub fn question(entries: &[u64], window: u64) -> Result<(), Refusal> {
    table(entries)?;
    refuse_if(window > LAST_QUESTION, Refusal::WindowTooLong)
}

/// A file's limits: 6, 7.
pub fn limits(delay: u64, buffer: u64) -> Result<(), Refusal> {
    delay_limit(delay)?;
    buffer_limit(buffer)
}

fn delay_limit(delay: u64) -> Result<(), Refusal> {
    let passes = delay <= MOST_DELAY || delay == u64::from(NO_DELAY);
    refuse_if(!passes, Refusal::DelayOutOfRange)
}

fn buffer_limit(buffer: u64) -> Result<(), Refusal> {
    let passes = buffer <= MOST_PACKETS || buffer == u64::from(NO_BUFFER);
    refuse_if(!passes, Refusal::BufferOutOfRange)
}

/// A set-up's limits: 6, 7, 23.
fn limits_to_set_up(delay: u64, buffer: u64) -> Result<(), Refusal> {
    limits(delay, buffer)?;
    let both_none = delay == u64::from(NO_DELAY) && buffer == u64::from(NO_BUFFER);
    refuse_if(both_none, Refusal::BothLimitsNone)
}

/// Set-up: table, 6, 7, 23.
pub fn set_up(entries: &[u64], delay: u64, buffer: u64) -> Result<(), Refusal> {
    table(entries)?;
    limits_to_set_up(delay, buffer)
}

/// Slot: 8, 9.
pub fn slot(arrivals: u64, slots_taken: u64) -> Result<(), Refusal> {
    refuse_if(arrivals > MOST_PACKETS, Refusal::TooManyArrivals)?;
    refuse_if(slots_taken >= MOST_LIVE_SLOTS, Refusal::SlotsUsedUp)
}

/// Whole trace, and anyone's rows or certificate of one: set-up, 10, 11, 8. The lengths are those of
/// the lent lists.
pub fn trace<const LISTS: usize>(
    entries: &[u64],
    delay: u64,
    buffer: u64,
    arrivals: &[u64],
    list_lengths: [usize; LISTS],
) -> Result<(), Refusal> {
    set_up(entries, delay, buffer)?;
    arrivals_and_lists(arrivals, list_lengths, [arrivals.len(); LISTS])
}

/// 10, 11, 8: the trace's length, the lists' lengths, the counts.
fn arrivals_and_lists<const LISTS: usize>(
    arrivals: &[u64],
    list_lengths: [usize; LISTS],
    wanted: [usize; LISTS],
) -> Result<(), Refusal> {
    trace_slots(arrivals.len() as u64)?;
    lists_and_counts(arrivals, list_lengths, wanted)
}

/// 11, 8: the lists' lengths, the counts.
fn lists_and_counts<const LISTS: usize>(
    arrivals: &[u64],
    list_lengths: [usize; LISTS],
    wanted: [usize; LISTS],
) -> Result<(), Refusal> {
    refuse_if(list_lengths != wanted, Refusal::ListOfOtherLength)?;
    counts(arrivals)
}

fn trace_slots(slots: u64) -> Result<(), Refusal> {
    refuse_if(slots > MOST_TRACE_SLOTS, Refusal::TraceTooLong)
}

/// Buckets, each a rate and a burst: 15, then 16, where the table's numbers are checked.
pub fn buckets(profile: &[(u64, u64)]) -> Result<(), Refusal> {
    let in_range = (1..=MOST_BUCKETS).contains(&profile.len());
    refuse_if(!in_range, Refusal::BucketsOutOfRange)?;
    let too_large = |&(rate, burst): &(u64, u64)| rate > MOST_PACKETS || burst > MOST_PACKETS;
    refuse_if(profile.iter().any(too_large), Refusal::BucketTooLarge)
}

/// Set-up of a device of buckets: 15, 16, 6, 7, 23.
pub fn bucket_set_up(profile: &[(u64, u64)], delay: u64, buffer: u64) -> Result<(), Refusal> {
    buckets(profile)?;
    limits_to_set_up(delay, buffer)
}

/// Path: 17, each table from the first on, 6, 7, 23, 10, 11, 8. The lists are those of the admitted, the
/// dropped and, stages × slots long, each stage's departures.
pub fn path(
    tables: &[Vec<u64>],
    delay: u64,
    buffer: u64,
    arrivals: &[u64],
    list_lengths: [usize; 3],
) -> Result<(), Refusal> {
    let in_range = (1..=MOST_STAGES).contains(&tables.len());
    refuse_if(!in_range, Refusal::StagesOutOfRange)?;
    tables.iter().try_for_each(|entries| table(entries))?;
    limits_to_set_up(delay, buffer)?;
    let slots = arrivals.len();
    arrivals_and_lists(arrivals, list_lengths, [slots, slots, tables.len() * slots])
}

/// Chain, found or checked: set-up, 10, 11, 8, then 18. The three lists are each one longer than the
/// trace.
pub fn chain(
    entries: &[u64],
    delay: u64,
    buffer: u64,
    arrivals: &[u64],
    slot: u64,
    list_lengths: [usize; 3],
) -> Result<(), Refusal> {
    set_up(entries, delay, buffer)?;
    arrivals_and_lists(arrivals, list_lengths, [arrivals.len() + 1; 3])?;
    refuse_if(slot > arrivals.len() as u64, Refusal::SlotBeyondTrace)
}

/// Square: 19 over all of it, then row after row, at each entry 3 before 4; 6, 7, 23, 20, 11, 8.
pub fn square(
    square: &Square,
    delay: u64,
    buffer: u64,
    arrivals: &[u64],
    list_lengths: [usize; 3],
) -> Result<(), Refusal> {
    let not_zero = |entries: &[u64]| entries.iter().any(|&entry| entry != 0);
    let mut rows = square.iter().enumerate();
    let up_to_diagonal = rows.any(|(s, row)| not_zero(&row[..=s]));
    refuse_if(up_to_diagonal, Refusal::EntryUpToDiagonal)?;
    square.iter().try_for_each(|row| rising(row))?;
    limits_to_set_up(delay, buffer)?;
    let ahead = if delay == u64::from(NO_DELAY) {
        0
    } else {
        delay
    };
    let reached = arrivals.len() as u64 + ahead;
    refuse_if(reached > LAST_SLOT as u64, Refusal::TraceBeyondSquare)?;
    lists_and_counts(arrivals, list_lengths, [arrivals.len(); 3])
}

/// Port: 21, 22, 11, 8. The input and the sent list are streams × slots long, the late list has one
/// count a stream.
pub fn port(
    deadlines: &[u64],
    slots: u64,
    input: &[u64],
    list_lengths: [usize; 2],
) -> Result<(), Refusal> {
    let streams = deadlines.len();
    let in_range = (1..=MOST_STREAMS).contains(&streams) && slots <= MOST_PORT_SLOTS;
    refuse_if(!in_range, Refusal::PortOutOfRange)?;
    let too_long = deadlines.iter().any(|&deadline| deadline > MOST_DEADLINE);
    refuse_if(too_long, Refusal::DeadlineTooLong)?;
    let counted = streams * slots as usize;
    let lengths = [input.len(), list_lengths[0], list_lengths[1]];
    lists_and_counts(input, lengths, [counted, counted, streams])
}

/// The trace that loses most: set-up, 10, 11, 8, in that order, for the number of slots, the length of
/// the list and the most in a slot.
pub fn worst_trace(
    entries: &[u64],
    delay: u64,
    buffer: u64,
    slots: u64,
    list_length: usize,
    most_in_slot: u64,
) -> Result<(), Refusal> {
    set_up(entries, delay, buffer)?;
    trace_slots(slots)?;
    refuse_if(list_length as u64 != slots, Refusal::ListOfOtherLength)?;
    counts(&[most_in_slot])
}

/// The list of all short traces: 24, 11. It is slots × 4-to-the-power-slots counts long.
pub fn short_traces(slots: u64, list_length: usize) -> Result<(), Refusal> {
    short_slots(slots)?;
    let wanted = slots * 4_u64.pow(slots as u32);
    refuse_if(list_length as u64 != wanted, Refusal::ListOfOtherLength)
}

/// The pencil version: set-up, 24, 11, 8.
pub fn pencil(
    entries: &[u64],
    delay: u64,
    buffer: u64,
    arrivals: &[u64],
    list_lengths: [usize; 3],
) -> Result<(), Refusal> {
    set_up(entries, delay, buffer)?;
    short_slots(arrivals.len() as u64)?;
    lists_and_counts(arrivals, list_lengths, [arrivals.len(); 3])
}

fn short_slots(slots: u64) -> Result<(), Refusal> {
    refuse_if(slots > MOST_SHORT_SLOTS, Refusal::ShortTraceTooLong)
}

/// The smallest buffer limit: table, 6, 10, 8.
pub fn smallest_buffer(entries: &[u64], delay: u64, arrivals: &[u64]) -> Result<(), Refusal> {
    table(entries)?;
    delay_limit(delay)?;
    slots_and_counts(arrivals)
}

/// The smallest delay limit: table, 7, 10, 8.
pub fn smallest_delay(entries: &[u64], buffer: u64, arrivals: &[u64]) -> Result<(), Refusal> {
    table(entries)?;
    buffer_limit(buffer)?;
    slots_and_counts(arrivals)
}

/// 10, 8: the trace's length, the counts.
fn slots_and_counts(arrivals: &[u64]) -> Result<(), Refusal> {
    trace_slots(arrivals.len() as u64)?;
    counts(arrivals)
}

fn counts(arrivals: &[u64]) -> Result<(), Refusal> {
    let too_many = arrivals.iter().any(|&count| count > MOST_PACKETS);
    refuse_if(too_many, Refusal::TooManyArrivals)
}

/// File: 12, 1, 10, 13, 2, then the entries, 6, 7, 14 over all bursts, 8 over all counts.
pub fn file(bytes: &[u8]) -> Result<(), Refusal> {
    let header = Header::read(bytes).ok_or(Refusal::FileWithoutHeader)?;
    windows(u64::from(header.last_window))?;
    let longest = u64::from(header.slots.max(header.bursts));
    refuse_if(longest > MOST_TRACE_SLOTS, Refusal::TraceTooLong)?;
    let as_long = bytes.len() as u64 == header.file_length();
    refuse_if(!as_long, Refusal::FileOfOtherLength)?;
    file_numbers(bytes, &header)
}

/// The file's checks from 2 on, when its length is known to be right.
fn file_numbers(bytes: &[u8], header: &Header) -> Result<(), Refusal> {
    let wide = |part: &[u8]| -> Vec<u64> { numbers(part).into_iter().map(u64::from).collect() };
    entries(&wide(&bytes[header.table_bytes()]))?;
    limits(u64::from(header.delay), u64::from(header.buffer))?;
    burst_slots(&wide(&bytes[header.slot_bytes()]), u64::from(header.slots))?;
    counts(&wide(&bytes[header.count_bytes()]))
}

/// 14: a slot number 0, above T, or not above the one before.
fn burst_slots(bursts: &[u64], slots: u64) -> Result<(), Refusal> {
    let out_of_range = bursts.iter().any(|&slot| slot == 0 || slot > slots);
    let rising = bursts.windows(2).all(|pair| pair[0] < pair[1]);
    refuse_if(out_of_range || !rising, Refusal::BurstSlotOutOfOrder)
}
