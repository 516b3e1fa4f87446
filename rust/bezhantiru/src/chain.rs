//! Each loss with its chain. Document 02, 2.8.

use crate::boundary::chain::{self, Chain, ChainLists};
use crate::refusal::Refusal;

/// Writes the chain of a slot to the lists' first places, 0, 0, 0 and then each link's last slot,
/// mark and amount, and tells how many places these are; or gives the first refusal of table, 6, 7,
/// 23, 10, 11, 8, 18 and leaves the lists as they were. The amounts' sum is the packets admitted by the
/// slot. A chain of 4,096 links uses up to 1 MiB of stack.
///
/// ```
/// use bezhantiru::{Chain, ChainLists, Refusal, check_chain, find_chain};
///
/// # fn main() -> Result<(), Refusal> {
/// let (table, arrivals) = ([0, 2, 3], [5, 0, 4, 0]);
/// let [mut slots, mut marks, mut amounts] = [[7; 5]; 3];
/// let lists = ChainLists { slots: &mut slots, marks: &mut marks, amounts: &mut amounts };
/// let places = find_chain(&table, 1, 9, &arrivals, 3, lists)?;
/// // One link from slot 0 to slot 3, by the delay limit: f(3+1) = 6.
/// assert_eq!(places, 2);
/// assert_eq!((slots, marks, amounts), ([0, 3, 7, 7, 7], [0, 2, 7, 7, 7], [0, 6, 7, 7, 7]));
/// let chain = Chain { slots: &slots, marks: &marks, amounts: &amounts, places };
/// assert_eq!(check_chain(&table, 1, 9, &arrivals, 3, chain), Ok(true));
/// assert_eq!(check_chain(&table, 1, 9, &arrivals, 4, chain), Ok(false));
/// assert_eq!(check_chain(&table, 1, 9, &arrivals, 5, chain), Err(Refusal::SlotBeyondTrace));
/// # Ok(())
/// # }
/// ```
pub fn find_chain(
    table: &[u32],
    delay: u32,
    buffer: u32,
    arrivals: &[u32],
    slot: u32,
    lists: ChainLists<'_>,
) -> Result<u32, Refusal> {
    let found = chain::find_chain(table, delay, buffer, arrivals, slot, lists);
    Refusal::check(found.number)?;
    Ok(found.places)
}

/// Whether anyone's chain to a slot is sound, however it was found; then no more packets are
/// admitted by the slot than its amounts' sum, in 64 bits. Or the first refusal of table, 6, 7, 23,
/// 10, 11, 8, 18.
pub fn check_chain(
    table: &[u32],
    delay: u32,
    buffer: u32,
    arrivals: &[u32],
    slot: u32,
    chain: Chain<'_>,
) -> Result<bool, Refusal> {
    let verdict = chain::check_chain(table, delay, buffer, arrivals, slot, chain);
    Refusal::check(verdict.number)?;
    Ok(verdict.sound == 1)
}
