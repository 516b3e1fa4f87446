//! Regulators at a shared port: each stream file goes through a regulator of its own, and the packets
//! that depart go to a port that sends up to CAPACITY a slot, each stream's due DEADLINE slots after they
//! come. Prints for each slot, stream by stream, the packets that come to the port and that it sends,
//! and those of all streams that wait after it; then the late packets of each stream. A stream that is
//! shorter than the longest has no arrivals after its end.
//!
//!     shared_port CAPACITY FILE DEADLINE [FILE DEADLINE] ..

use std::error::Error;
use std::io::{self, BufWriter, Write};
use std::{env, fs};

use bezhantiru::{Lists, PortLists, Refusal, port, run, stream};
use reference::layout::StreamFile;

const USAGE: &str = "usage: shared_port CAPACITY FILE DEADLINE [FILE DEADLINE] ..";

fn main() -> Result<(), Box<dyn Error>> {
    let words: Vec<String> = env::args().skip(1).collect();
    let (capacity, given) = words.split_first().ok_or(USAGE)?;
    let (mut files, mut deadlines) = (Vec::new(), Vec::new());
    for pair in given.chunks(2) {
        let [path, deadline] = pair else {
            return Err(USAGE.into());
        };
        files.push(accepted(path)?);
        deadlines.push(deadline.parse()?);
    }
    let slots = files
        .iter()
        .map(|file| file.header.slots)
        .max()
        .ok_or(USAGE)?;
    let mut input = Vec::new();
    for file in &files {
        input.extend(departed(file, slots as usize)?);
    }
    let (mut sent, mut late) = (vec![0; input.len()], vec![0; files.len()]);
    let lists = PortLists {
        sent: &mut sent,
        late: &mut late,
    };
    port::run(&deadlines, slots, capacity.parse()?, &input, lists)?;
    print(slots as usize, &input, &sent, &late)?;
    Ok(())
}

/// The numbers of a stream file, which the library has judged.
fn accepted(path: &str) -> Result<StreamFile, Box<dyn Error>> {
    let bytes = fs::read(path).map_err(|problem| format!("{path}: {problem}"))?;
    stream::counts(&bytes).map_err(|refusal| format!("{path}: {refusal}"))?;
    Ok(StreamFile::from_bytes(&bytes)?)
}

/// The packets that depart from a file's regulator in so many slots.
fn departed(file: &StreamFile, slots: usize) -> Result<Vec<u32>, Refusal> {
    let mut arrivals = vec![0; slots];
    for (&slot, &count) in file.burst_slots.iter().zip(&file.burst_counts) {
        arrivals[slot as usize - 1] = count;
    }
    let [mut admitted, mut dropped, mut departed] = [(); 3].map(|()| vec![0; slots]);
    let lists = Lists {
        admitted: &mut admitted,
        dropped: &mut dropped,
        departed: &mut departed,
    };
    let header = &file.header;
    run(&file.table, header.delay, header.buffer, &arrivals, lists)?;
    Ok(departed)
}

fn print(slots: usize, input: &[u32], sent: &[u32], late: &[u32]) -> io::Result<()> {
    let mut out = BufWriter::new(io::stdout().lock());
    writeln!(out, "slot{} waiting", " came sent".repeat(late.len()))?;
    let mut waiting = 0;
    for slot in 0..slots {
        write!(out, "{}", slot + 1)?;
        for place in (slot..input.len()).step_by(slots) {
            waiting += u64::from(input[place]) - u64::from(sent[place]);
            write!(out, " {} {}", input[place], sent[place])?;
        }
        writeln!(out, " {waiting}")?;
    }
    write!(out, "late")?;
    for count in late {
        write!(out, " {count}")?;
    }
    writeln!(out)?;
    out.flush()
}
