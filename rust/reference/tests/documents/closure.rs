//! The closure against the document's rows and its own definition.

use reference::closure::{by_compositions, by_recursion, question};
use reference::refusal::Refusal;

/// Tables with windows 0 to `last` whose entries never fall and are at most `most`.
fn tables(last: usize, most: u64) -> Vec<Vec<u64>> {
    let mut all = vec![vec![0]];
    for _ in 0..last {
        all = all.iter().flat_map(|table| longer(table, most)).collect();
    }
    all
}

fn longer(table: &[u64], most: u64) -> Vec<Vec<u64>> {
    let before = table[table.len() - 1];
    (before..=most)
        .map(|entry| [table, &[entry]].concat())
        .collect()
}

#[test]
fn rows_of_the_document() {
    assert_eq!(by_recursion(&[0, 2, 5], 2), [0, 2, 4]);
    assert_eq!(by_recursion(&[0, 0, 5], 2), [0, 0, 0]);
    assert_eq!(by_recursion(&[0, 5, 6, 20], 3), [0, 5, 6, 11]);
    assert_eq!(by_recursion(&[0, 2, 3], 4), [0, 2, 3, 5, 6]);
}

#[test]
fn recursion_gives_the_least_composition() {
    for table in tables(3, 4).into_iter().chain(tables(5, 2)) {
        let f = by_recursion(&table, 9);
        for (window, &value) in f.iter().enumerate() {
            assert_eq!(
                value,
                by_compositions(&table, window),
                "{table:?} at {window}"
            );
        }
    }
}

#[test]
fn closure_is_subadditive_rises_and_keeps_below_the_table() {
    for table in tables(3, 5) {
        let f = by_recursion(&table, 12);
        assert!(f.is_sorted(), "{table:?}");
        assert!(table.iter().zip(&f).all(|(entry, value)| value <= entry));
        for i in 0..=12 {
            assert!((0..=12 - i).all(|j| f[i] + f[j] >= f[i + j]), "{table:?}");
        }
    }
}

/// Every subadditive function under the table, window 0 at 0, is nowhere above the closure. The
/// function need not rise, so its values are tried freely.
#[test]
fn closure_is_the_largest() {
    for table in tables(3, 4) {
        let f = by_recursion(&table, 3);
        let tried = (0..125).map(|n| [0, n % 5, n / 5 % 5, n / 25]);
        let below = tried.filter(|h| h.iter().zip(&table).all(|(value, entry)| value <= entry));
        let subadditive = |h: &[u64; 4]| 2 * h[1] >= h[2] && h[1] + h[2] >= h[3];
        for h in below.filter(subadditive) {
            assert!(
                h.iter().zip(&f).all(|(value, most)| value <= most),
                "{table:?}"
            );
        }
    }
}

/// Totals keep f over all windows exactly when they keep the table over windows of 1 to L.
#[test]
fn keeping_the_table_is_keeping_the_closure() {
    for table in tables(2, 3) {
        let f = by_recursion(&table, 4);
        for choice in 0..256 {
            let departed = [1, 4, 16, 64].map(|place| choice / place % 4);
            let keeps = |windows: usize, envelope: &[u64]| {
                (1..=windows).all(|window| {
                    let sums = departed.windows(window).map(|run| run.iter().sum::<u64>());
                    sums.max().is_none_or(|most| most <= envelope[window])
                })
            };
            assert_eq!(keeps(2, &table), keeps(4, &f), "{table:?} {departed:?}");
        }
    }
}

#[test]
fn questions_end_at_window_4160() {
    assert_eq!(question(&[0, 2, 3], 0), Ok(0));
    assert_eq!(question(&[0, 2, 3], 4_160), Ok(6_240));
    assert_eq!(question(&[0, 2, 3], 4_161), Err(Refusal::WindowTooLong));
    assert_eq!(question(&[0, 2, 3], u64::MAX), Err(Refusal::WindowTooLong));
    assert_eq!(question(&[0, 3, 2], 4_161), Err(Refusal::EntryFalls));
    assert_eq!(question(&[0, 1_000_000], 4_160), Ok(4_160_000_000));
}
