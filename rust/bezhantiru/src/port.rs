//! A shared port above the regulators. Document 02, 2.11.

use crate::boundary::{self, PortLists};
use crate::refusal::Refusal;

/// Fills the lists for a port that sends up to `capacity` packets a slot, with one stream for each
/// deadline, or gives the first refusal of 21, 22, 11, 8 and leaves the lists as they were. `input` has
/// the packets of the first stream that come in each slot, then those of the second, and so on, as
/// regulators let them go; `sent` gets those sent in each slot in the same way, and `late` one count a
/// stream: packets sent after their due slot, or unsent at the end with a due slot in the run.
///
/// Two streams, of which the second has to wait where both are due by the same slot:
///
/// ```
/// use bezhantiru::{PortLists, Refusal, port};
///
/// # fn main() -> Result<(), Refusal> {
/// let (mut sent, mut late) = ([0; 6], [0; 2]);
/// let lists = PortLists {
///     sent: &mut sent,
///     late: &mut late,
/// };
/// let input = [3, 0, 0, 2, 0, 0];
/// port::run(&[1, 1], 3, 2, &input, lists)?;
/// let (first, second) = sent.split_at(3);
/// assert_eq!((first, second), (&[2, 1, 0][..], &[0, 1, 1][..]));
/// assert_eq!(late, [0, 1]);
/// # Ok(())
/// # }
/// ```
pub fn run(
    deadlines: &[u32],
    slots: u32,
    capacity: u32,
    input: &[u32],
    lists: PortLists<'_>,
) -> Result<(), Refusal> {
    Refusal::check(boundary::port_run(deadlines, slots, capacity, input, lists))
}
