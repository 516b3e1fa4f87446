//! Tables with the refusal's number that each gets, 0 where accepted.

/// At every limit and one beyond, and with faults that meet.
pub fn judged_tables() -> Vec<(Vec<u32>, u32)> {
    let rising = |entries: u32| (0..entries).collect::<Vec<u32>>();
    vec![
        (rising(2), 0),
        (rising(65), 0),
        (rising(66), 1),
        (rising(67), 1),
        (rising(10_000), 1),
        (vec![], 1),
        (vec![0], 1),
        (vec![7], 1),
        (vec![7; 66], 1),
        (vec![1, 0], 2),
        (vec![1_000_001, 1_000_001], 2),
        (vec![u32::MAX, 0, u32::MAX], 2),
        (vec![0, 1_000_000], 0),
        (vec![0, 1_000_001], 3),
        (vec![0, u32::MAX], 3),
        (vec![0, 3, 1_000_001, 2], 3),
        (vec![0, 3, 2], 4),
        (vec![0, 3, 2, 1_000_001], 4),
        (vec![0, 1_000_000, 999_999], 4),
        (vec![0; 65], 0),
        (vec![0, 5, 5], 0),
    ]
}
