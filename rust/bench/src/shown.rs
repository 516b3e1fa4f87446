//! Numbers as the tables show them.

use bezhantiru::NO_DELAY;

/// A delay limit's number, or the word none.
pub fn limit(delay: u32) -> String {
    if delay == NO_DELAY {
        String::from("none")
    } else {
        delay.to_string()
    }
}

/// A number with a comma before every three digits.
pub fn grouped(number: u64) -> String {
    let digits = number.to_string();
    let place = |place: usize| digits.len() - place;
    let parts = digits.char_indices().map(|(index, digit)| {
        let comma = index > 0 && place(index).is_multiple_of(3);
        if comma {
            format!(",{digit}")
        } else {
            digit.to_string()
        }
    });
    parts.collect()
}

pub fn duration(nanoseconds: f64) -> String {
    if nanoseconds < 1e3 {
        format!("{nanoseconds:.1} ns")
    } else if nanoseconds < 1e6 {
        format!("{:.1} µs", nanoseconds / 1e3)
    } else {
        format!("{:.2} ms", nanoseconds / 1e6)
    }
}

#[cfg(test)]
mod tests {
    use super::*;

    #[test]
    fn numbers_are_grouped_by_three() {
        let shown = [0, 12, 512, 4_096, 12_345, 1_000_000].map(grouped);
        assert_eq!(shown, ["0", "12", "512", "4,096", "12,345", "1,000,000"]);
    }
}
