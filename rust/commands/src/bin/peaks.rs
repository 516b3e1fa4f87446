//! How full the regulator of a stream file gets. The library judges the file and carries the peaks;
//! the numbers are read where the reference's layout says that they stand.
//!
//!     peaks FILE        or        peaks - < FILE

use std::fmt;
use std::process::ExitCode;

use bezhantiru::{Refusal, Regulator};
use commands::{Problem, Program, accepted, arguments, read};

fn main() -> ExitCode {
    Program("peaks").answer(printed())
}

fn printed() -> Result<String, Problem> {
    let [file] = arguments("one stream file, or - for standard input")?;
    let peaks = Peaks::of_file(&read(&file)?);
    let peaks = peaks.map_err(|refusal| Problem::refused(&file, refusal))?;
    Ok(peaks.to_string())
}

/// A reader's peak, and the slot where it is first reached; 0 is there before the first slot.
#[derive(Clone, Copy, Debug, Default, PartialEq, Eq)]
pub struct Peak {
    pub packets: u64,
    pub slot: Option<u32>,
}

impl Peak {
    fn raise(&mut self, packets: u64, slot: u32) {
        if packets > self.packets {
            *self = Peak {
                packets,
                slot: Some(slot),
            };
        }
    }
}

impl fmt::Display for Peak {
    fn fmt(&self, out: &mut fmt::Formatter<'_>) -> fmt::Result {
        write!(out, "{}", self.packets)?;
        self.slot
            .map_or(Ok(()), |slot| write!(out, " in slot {slot}"))
    }
}

/// The order form's, at a slot's end, and the bench's, before a slot's departures.
#[derive(Clone, Copy, Debug, Default, PartialEq, Eq)]
pub struct Peaks {
    pub form: Peak,
    pub bench: Peak,
}

impl Peaks {
    /// Over all slots of a stream file, or the file's first refusal.
    pub fn of_file(file: &[u8]) -> Result<Peaks, Refusal> {
        let file = accepted(file)?;
        let header = &file.header;
        let mut regulator = Regulator::set_up(&file.table, header.delay, header.buffer)?;
        let mut bursts = file.burst_slots.iter().zip(&file.burst_counts).peekable();
        let mut peaks = Peaks::default();
        for slot in 1..=header.slots {
            let named = bursts.next_if(|(named, _)| **named == slot);
            regulator.slot(named.map_or(0, |(_, count)| u64::from(*count)))?;
            peaks.form.raise(regulator.form_peak(), slot);
            peaks.bench.raise(regulator.bench_peak(), slot);
        }
        Ok(peaks)
    }
}

impl fmt::Display for Peaks {
    fn fmt(&self, out: &mut fmt::Formatter<'_>) -> fmt::Result {
        writeln!(out, "form {}", self.form)?;
        writeln!(out, "bench {}", self.bench)
    }
}
