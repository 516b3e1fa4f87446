//! The two fills of any numbers, in sums that cannot overflow: below 0 they are 0, and what 64 bits
//! do not hold is the largest number.

pub fn form_fill(held_before: u64, admitted: u64, departed: u64) -> u64 {
    let full = u128::from(held_before) + u128::from(admitted);
    fitting(full.saturating_sub(u128::from(departed)))
}

pub fn bench_fill(held_before: u64, admitted: u64) -> u64 {
    fitting(u128::from(held_before) + u128::from(admitted))
}

fn fitting(fill: u128) -> u64 {
    u64::try_from(fill).unwrap_or(u64::MAX)
}
