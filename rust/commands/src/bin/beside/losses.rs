//! Two loss curves, ours and anyone's.

use std::fmt;

use bezhantiru::Refusal;
use commands::trace::Run;
use reference::layout::StreamFile;

/// Packets lost by slots 0, 1, 2, .. Rows that admit more than arrives lose fewer than none.
#[derive(Clone, Debug, PartialEq, Eq)]
pub struct Losses {
    pub ours: Vec<i64>,
    pub theirs: Vec<i64>,
}

impl Losses {
    /// Those of our run and of rows that admit so many packets in each slot.
    pub(crate) fn of(
        file: &StreamFile,
        arrivals: &[u32],
        admitted: &[u32],
    ) -> Result<Losses, Refusal> {
        let ours = Run::of(&file.table, file.header.limits(), arrivals)?;
        Ok(Losses {
            ours: curve(arrivals, &ours.admitted),
            theirs: curve(arrivals, admitted),
        })
    }

    /// Packets lost in the end that need not have been, for ours lost that many fewer.
    pub fn needless(&self) -> u64 {
        let [ours, theirs] = [&self.ours, &self.theirs].map(|curve| curve[curve.len() - 1]);
        (theirs - ours).max(0).unsigned_abs()
    }
}

/// A(t) - U(t) from slot 0 on.
fn curve(arrivals: &[u32], admitted: &[u32]) -> Vec<i64> {
    let mut lost = vec![0];
    for (&arrived, &admitted) in arrivals.iter().zip(admitted) {
        lost.push(lost[lost.len() - 1] + i64::from(arrived) - i64::from(admitted));
    }
    lost
}

impl fmt::Display for Losses {
    fn fmt(&self, out: &mut fmt::Formatter<'_>) -> fmt::Result {
        let Losses { ours, theirs } = self;
        match (0..ours.len()).find(|&slot| ours[slot] != theirs[slot]) {
            None => writeln!(out, "losses are the same by every slot")?,
            Some(slot) => {
                let (ours, theirs) = (ours[slot], theirs[slot]);
                writeln!(
                    out,
                    "losses first differ by slot {slot}: {ours} ours, {theirs} theirs"
                )?;
            }
        }
        let last = ours.len() - 1;
        let (ours, theirs) = (ours[last], theirs[last]);
        writeln!(out, "lost by slot {last}: {ours} ours, {theirs} theirs")
    }
}
