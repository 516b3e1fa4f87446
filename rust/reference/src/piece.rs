//! How f at a window is made up. Document 02, 2.4.

use crate::closure;
use crate::refusal::{self, Refusal};

/// The envelope's fuller answer.
#[derive(Clone, Copy, Debug, PartialEq, Eq)]
pub struct Answer {
    /// f at the window
    pub packets: u64,
    /// The window of its first table entry, 0 for window 0.
    pub piece: usize,
}

/// f at one window with its first piece, or the first refusal of table, 5.
pub fn question(table: &[u64], window: u64) -> Result<Answer, Refusal> {
    refusal::question(table, window)?;
    let window = window as usize;
    let f = closure::by_recursion(table, window);
    Ok(Answer {
        packets: f[window],
        piece: piece(table, &f, window),
    })
}

/// The first piece of a window, then that of the window that remains, and so on until none does.
pub fn in_turn(table: &[u64], window: u64) -> Result<Vec<usize>, Refusal> {
    refusal::question(table, window)?;
    let mut left = window as usize;
    let f = closure::by_recursion(table, left);
    let mut pieces = Vec::new();
    while left > 0 {
        let first = piece(table, &f, left);
        pieces.push(first);
        left -= first;
    }
    Ok(pieces)
}

/// The smallest k from 1 to L, not above the window, for which the given table's entry at k plus f
/// at the remaining window is f. Some k always is, because f is the least of these sums.
fn piece(table: &[u64], f: &[u64], window: usize) -> usize {
    let last = table.len() - 1;
    let makes_up = |k: &usize| table[*k] + f[window - k] == f[window];
    (1..=last.min(window)).find(makes_up).unwrap_or(0)
}

#[cfg(test)]
mod tests {
    use super::*;

    fn answer(table: &[u64], window: u64) -> (u64, usize) {
        let Answer { packets, piece } = question(table, window).expect("an accepted question");
        (packets, piece)
    }

    #[test]
    fn the_request_s_rows() {
        assert_eq!(answer(&[0, 2, 3], 4), (6, 2));
        assert_eq!(answer(&[0, 2, 5], 2), (4, 1));
        assert_eq!(answer(&[0, 2, 3], 0), (0, 0));
        assert_eq!(answer(&[0, 0, 0], 0), (0, 0));
    }

    #[test]
    fn other_rows() {
        assert_eq!(answer(&[0, 2, 3], 3), (5, 1));
        assert_eq!(answer(&[0, 5, 6, 20], 3), (11, 1));
        assert_eq!(answer(&[0, 0, 5], 4_160), (0, 1));
        assert_eq!(answer(&[0, 7, 7, 7], 4_160), (9_709, 2));
    }

    /// Taking pieces one after another fills the window with entries that add up to f, and the given
    /// entries name the same piece as the closed ones.
    #[test]
    fn pieces_make_up_the_window() {
        let tables: [&[u64]; 5] = [
            &[0, 2, 3],
            &[0, 2, 5],
            &[0, 5, 6, 20],
            &[0, 3, 3, 9, 9],
            &[0, 1, 4, 4, 4, 9],
        ];
        for table in tables {
            let f = closure::by_recursion(table, 60);
            for window in 0..=60 {
                let (mut left, mut sum) = (window, 0);
                for piece in in_turn(table, window as u64).expect("an accepted question") {
                    assert_eq!(answer(table, left as u64), (f[left], piece));
                    assert_eq!(piece, super::piece(&f[..table.len()], &f, left));
                    sum += table[piece];
                    left -= piece;
                }
                assert_eq!((left, sum), (0, f[window]));
            }
        }
    }

    #[test]
    fn refusals_are_the_question_s() {
        for (table, window, refusal) in [
            (&[0, 2, 3][..], 4_161, Refusal::WindowTooLong),
            (&[0, 3, 2], 4_161, Refusal::EntryFalls),
            (&[], 0, Refusal::WindowsOutOfRange),
        ] {
            assert_eq!(question(table, window), Err(refusal));
            assert_eq!(in_turn(table, window), Err(refusal));
        }
    }
}
