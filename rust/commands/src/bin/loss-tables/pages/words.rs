//! Numbers in sentences.

use commands::picture::axis::shown;
use reference::layout::{NO_BUFFER, NO_DELAY};

/// A number with commas.
pub fn number(count: u64) -> String {
    shown(count as i64)
}

/// So many of something.
pub fn counted(count: u64, one: &str) -> String {
    let more = if count == 1 { "" } else { "s" };
    format!("{} {one}{more}", number(count))
}

/// Packets lost of those arrived, in per cent with two digits. Some are never none, nor all.
pub fn share(lost: u64, arrived: u64) -> Option<String> {
    if arrived == 0 {
        return None;
    }
    let hundredths = (lost * 20_000 + arrived) / (2 * arrived);
    Some(match hundredths {
        0 if lost > 0 => String::from("below 0.01"),
        10_000 if lost < arrived => String::from("above 99.99"),
        _ => format!("{}.{:02}", hundredths / 100, hundredths % 100),
    })
}

/// A delay limit, or the word for none.
pub fn delay(limit: u32) -> String {
    match limit {
        NO_DELAY => String::from("none"),
        limit => limit.to_string(),
    }
}

/// A buffer limit, or the word for none.
pub fn buffer(limit: u32) -> String {
    match limit {
        NO_BUFFER => String::from("none"),
        limit => number(limit.into()),
    }
}

#[cfg(test)]
mod tests {
    use super::*;

    #[test]
    fn shares() {
        let share = |lost, arrived| share(lost, arrived).expect("arrivals");
        assert_eq!(super::share(0, 0), None);
        assert_eq!(share(0, 7), "0.00");
        assert_eq!(share(12, 178), "6.74");
        assert_eq!(share(1, 8), "12.50");
        assert_eq!(share(1, 3), "33.33");
        assert_eq!(share(2, 3), "66.67");
        assert_eq!(share(1, 20_000), "0.01");
        assert_eq!(share(1, 20_001), "below 0.01");
        assert_eq!(share(19_999, 20_000), "above 99.99");
        assert_eq!(share(7, 7), "100.00");
        let most = 4_096 * 1_000_000;
        assert_eq!(
            (share(most, most), &*share(most - 1, most)),
            (String::from("100.00"), "above 99.99")
        );
    }

    #[test]
    fn numbers() {
        assert_eq!(counted(1, "slot"), "1 slot");
        assert_eq!(counted(4_096, "slot"), "4,096 slots");
        assert_eq!(
            (delay(7), buffer(40_000)),
            (String::from("7"), String::from("40,000"))
        );
        assert_eq!(
            (delay(NO_DELAY), buffer(NO_BUFFER)),
            (String::from("none"), String::from("none"))
        );
    }
}
