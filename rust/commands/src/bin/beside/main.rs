//! Anyone's rows of a stream file beside ours. The library judges the rows, and ours are its
//! whole-trace run's.
//!
//!     beside STREAM ROWS

mod breach;
mod losses;

use std::fmt;
use std::process::ExitCode;

use bezhantiru::{NO_DELAY, Refusal, Verdict, judge};
use commands::rows::Rows;
use commands::trace::empty_at_end;
use commands::{Answer, NO, Problem, Program, accepted, arguments, read};
use reference::layout::StreamFile;

pub use breach::Breach;
pub use losses::Losses;

fn main() -> ExitCode {
    Program("beside").answer(answered())
}

fn answered() -> Result<Answer, Problem> {
    let [stream, rows] = arguments("a stream file and rows, one of which may be -")?;
    let file = accepted(&read(&stream)?).map_err(|refusal| Problem::of_file(&stream, refusal))?;
    let theirs = Rows::of_file(&rows, &file.arrivals())?;
    let beside = Beside::of(&file, &theirs).map_err(|refusal| {
        let nothing_to_lose = match refusal {
            Refusal::BothLimitsNone => "; such a stream loses nothing, and no rows are judged",
            _ => "",
        };
        Problem::of_file(&stream, format!("{refusal}{nothing_to_lose}"))
    })?;
    Ok(Answer {
        text: beside.to_string(),
        status: if beside.breach.is_none() { 0 } else { NO },
    })
}

/// What is said of anyone's rows.
#[derive(Clone, Debug, PartialEq, Eq)]
pub struct Beside {
    /// The rule that breaks first; none for rows that are permitted.
    pub breach: Option<Breach>,
    pub losses: Losses,
    pub unseen: Option<Unseen>,
}

/// The stream has a delay limit and does not end in as many slots without arrivals: the deadlines of
/// its last slots lie beyond it.
#[derive(Clone, Copy, Debug, PartialEq, Eq)]
pub struct Unseen {
    pub delay: usize,
    /// The last slot whose deadline lies in the stream, or 0 for none.
    pub last_seen: usize,
}

impl Unseen {
    fn of(delay: u32, arrivals: &[u32]) -> Option<Unseen> {
        let slots = arrivals.len();
        let delay = (delay != NO_DELAY).then_some(delay as usize)?;
        (empty_at_end(arrivals) < delay).then_some(Unseen {
            delay,
            last_seen: slots.saturating_sub(delay),
        })
    }
}

impl Beside {
    /// Rows of an accepted file beside ours, or the first refusal of 23.
    pub fn of(file: &StreamFile, rows: &Rows) -> Result<Beside, Refusal> {
        let (table, delay, buffer) = (&file.table, file.header.delay, file.header.buffer);
        let arrivals = file.arrivals();
        let theirs = bezhantiru::Rows {
            admitted: &rows.admitted,
            departed: &rows.departed,
        };
        let breach = match judge(table, delay, buffer, &arrivals, theirs)? {
            Verdict::Permitted => None,
            Verdict::Breaks { rule, slot } => Some(Breach::of(rule, slot as usize, file, rows)),
        };
        Ok(Beside {
            breach,
            losses: Losses::of(file, &arrivals, &rows.admitted)?,
            unseen: Unseen::of(delay, &arrivals),
        })
    }
}

impl fmt::Display for Beside {
    fn fmt(&self, out: &mut fmt::Formatter<'_>) -> fmt::Result {
        let slots = self.losses.ours.len() - 1;
        match &self.breach {
            Some(breach) => writeln!(out, "{breach}")?,
            None if slots == 0 => writeln!(out, "permitted: there are no slots")?,
            None => writeln!(out, "permitted: every rule is kept in slots 1 to {slots}")?,
        }
        write!(out, "{}", self.losses)?;
        let needless = self.losses.needless();
        match (&self.breach, self.unseen) {
            (Some(_), _) => {
                if needless > 0 {
                    writeln!(out, "{}", need_not(needless))?;
                }
                out.write_str("not permitted: a loss below ours shows nothing\n")
            }
            (None, None) => writeln!(out, "{}", need_not(needless)),
            (None, Some(unseen)) => {
                if needless > 0 {
                    writeln!(out, "at least {}", need_not(needless))?;
                }
                unseen.tell(slots, out)
            }
        }
    }
}

fn need_not(packets: u64) -> String {
    let packets = match packets {
        0 => String::from("no packet"),
        1 => String::from("1 packet"),
        _ => format!("{packets} packets"),
    };
    format!("{packets} lost that need not have been")
}

impl Unseen {
    /// What can be concluded from permitted rows of so many slots, and what cannot.
    fn tell(self, slots: usize, out: &mut fmt::Formatter<'_>) -> fmt::Result {
        let Unseen { delay, last_seen } = self;
        let first = last_seen + 1;
        writeln!(
            out,
            "the stream does not end in {delay} slots without arrivals: the deadlines of slots {first} to {slots} lie beyond it"
        )?;
        let by_slot = match last_seen {
            0 => String::new(),
            _ => format!("has lost less than ours by slot {last_seen} or "),
        };
        writeln!(
            out,
            "can be concluded: nobody permitted {by_slot}has let more packets go than ours by any slot"
        )?;
        writeln!(
            out,
            "cannot be concluded: that nobody loses less than ours from slot {first} on; who knows the end may admit there what would miss its deadline"
        )
    }
}
