//! Lists that the test owns, lent to a run with a margin on both sides that no run may write to.

use bezhantiru::{Lists, Refusal};

/// What the lists hold before a run; no accepted run answers it.
const MARK: u32 = 0xA5A5_A5A5;
const MARGIN: usize = 3;

/// How a run ended, and its lists after it: admitted, dropped and departed of a trace.
#[derive(Debug, PartialEq, Eq)]
pub struct Run<const N: usize = 3> {
    pub outcome: Result<(), Refusal>,
    pub lists: [Vec<u32>; N],
}

/// The run as it has to be when it is refused.
pub fn refused<const N: usize>(refusal: Refusal, lengths: [usize; N]) -> Run<N> {
    Run {
        outcome: Err(refusal),
        lists: lengths.map(|length| vec![MARK; length]),
    }
}

/// A run over a trace's lists of the given lengths.
pub fn lend(lengths: [usize; 3], run: impl FnOnce(Lists<'_>) -> Result<(), Refusal>) -> Run {
    lend_each(lengths, |[admitted, dropped, departed]| {
        run(Lists {
            admitted,
            dropped,
            departed,
        })
    })
}

/// A run over lists of the given lengths.
pub fn lend_each<const N: usize>(
    lengths: [usize; N],
    run: impl FnOnce([&mut [u32]; N]) -> Result<(), Refusal>,
) -> Run<N> {
    let mut lent = lengths.map(|length| vec![MARK; MARGIN + length + MARGIN]);
    let outcome = run(lent.each_mut().map(|list| {
        let end = list.len() - MARGIN;
        &mut list[MARGIN..end]
    }));
    Run {
        outcome,
        lists: lent.map(without_margins),
    }
}

fn without_margins(mut list: Vec<u32>) -> Vec<u32> {
    let after = list.split_off(list.len() - MARGIN);
    let inner = list.split_off(MARGIN);
    assert_eq!((list, after), (vec![MARK; MARGIN], vec![MARK; MARGIN]));
    inner
}
