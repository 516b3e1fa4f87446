//! One list that the test owns, lent with a margin on both sides that no call may write to.

const MARGIN: usize = 3;

/// What the list holds before a call: a number of its own at each place, which no call answers.
pub fn rubbish(length: usize) -> Vec<u32> {
    (0..length as u32)
        .map(|place| 0xFFA5_0000 | place)
        .collect()
}

/// The call's answer over a list of this length, and the list after it.
pub fn lend<T>(length: usize, call: impl FnOnce(&mut [u32]) -> T) -> (T, Vec<u32>) {
    let fence = rubbish(MARGIN);
    let mut lent = [&fence[..], &rubbish(length), &fence].concat();
    let answer = call(&mut lent[MARGIN..MARGIN + length]);
    let (before, rest) = lent.split_at(MARGIN);
    let (inner, after) = rest.split_at(length);
    assert_eq!((before, after), (&fence[..], &fence[..]));
    (answer, inner.to_vec())
}
