//! Every short trace with what our regulator makes of it. The library lists the traces and works their
//! rows out by its pencil version.
//!
//!     appendix "0 2 3" DELAY BUFFER SLOTS

use std::fmt;
use std::process::ExitCode;

use bezhantiru::pencil::{self, short_traces};
use bezhantiru::{Lists, Refusal};
use commands::{Problem, Program, arguments, buffer, delay, entries, number};

/// More slots are refused, so that no longer trace is ever lent.
const MOST_SLOTS: u32 = 5;

fn main() -> ExitCode {
    Program("appendix").answer(printed())
}

fn printed() -> Result<String, Problem> {
    let [table, limit, room, slots] = arguments("a table, two limits and a number of slots")?;
    let (table, limits) = (entries(&table)?, (delay(&limit)?, buffer(&room)?));
    let slots = number("the number of slots", &slots)?;
    let appendix = Appendix::of(&table, limits, slots).map_err(Problem::no_answer)?;
    Ok(appendix.to_string())
}

/// The traces in their order.
#[derive(Clone, Debug, PartialEq, Eq)]
pub struct Appendix {
    pub traces: Vec<Trace>,
}

/// Packets in each slot of a trace.
#[derive(Clone, Debug, PartialEq, Eq)]
pub struct Trace {
    pub arrived: Vec<u32>,
    pub admitted: Vec<u32>,
    pub dropped: Vec<u32>,
    pub departed: Vec<u32>,
}

impl Appendix {
    /// That of a set-up, or the first refusal of table, 6, 7, 23, 24.
    pub fn of(table: &[u32], limits: (u32, u32), slots: u32) -> Result<Appendix, Refusal> {
        let width = slots.min(MOST_SLOTS + 1) as usize;
        // What is refused of the set-up comes before what is refused of the slots.
        Trace::of(table, limits, &vec![0; width])?;
        let traces = 4_usize.pow(width as u32);
        let mut counts = vec![0; width * traces];
        short_traces(slots, &mut counts)?;
        let trace = |place: usize| Trace::of(table, limits, &counts[place * width..][..width]);
        Ok(Appendix {
            traces: (0..traces).map(trace).collect::<Result<_, _>>()?,
        })
    }

    pub fn lost(&self) -> u64 {
        let dropped = self.traces.iter().flat_map(|trace| &trace.dropped);
        dropped.copied().map(u64::from).sum()
    }
}

impl Trace {
    fn of(table: &[u32], (delay, buffer): (u32, u32), arrived: &[u32]) -> Result<Trace, Refusal> {
        let [mut admitted, mut dropped, mut departed] = [(); 3].map(|()| vec![0; arrived.len()]);
        let lists = Lists {
            admitted: &mut admitted,
            dropped: &mut dropped,
            departed: &mut departed,
        };
        pencil::run(table, delay, buffer, arrived, lists)?;
        Ok(Trace {
            arrived: arrived.to_vec(),
            admitted,
            dropped,
            departed,
        })
    }
}

impl fmt::Display for Appendix {
    fn fmt(&self, out: &mut fmt::Formatter<'_>) -> fmt::Result {
        for trace in &self.traces {
            writeln!(out, "{trace}")?;
        }
        let count = |number: u64, what: &str| match number {
            1 => format!("1 {what}"),
            _ => format!("{number} {what}s"),
        };
        let traces = count(self.traces.len() as u64, "trace");
        writeln!(out, "{traces}, {} lost", count(self.lost(), "packet"))
    }
}

impl fmt::Display for Trace {
    fn fmt(&self, out: &mut fmt::Formatter<'_>) -> fmt::Result {
        let columns = [
            ("arrived", &self.arrived),
            (", admitted", &self.admitted),
            (", dropped", &self.dropped),
            (", departed", &self.departed),
        ];
        for (name, counts) in columns {
            out.write_str(name)?;
            for count in counts {
                write!(out, " {count}")?;
            }
        }
        Ok(())
    }
}
