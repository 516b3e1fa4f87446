//! Axes: whole numbers on a stretch of the page, and round numbers to label them with.

/// From the lowest to the highest value, on places of the page from one to the other.
#[derive(Clone, Copy, Debug)]
pub struct Axis {
    low: i64,
    high: i64,
    from: f64,
    to: f64,
}

impl Axis {
    /// It holds all values and, where they are all above 0 by less than their range, 0 as well.
    pub fn of(values: impl Iterator<Item = i64>, from: f64, to: f64) -> Axis {
        let (mut low, mut high) = (i64::MAX, i64::MIN);
        for value in values {
            (low, high) = (low.min(value), high.max(value));
        }
        if low > 0 && low <= high - low {
            low = 0;
        }
        if low >= high {
            high = low + 1;
        }
        let step = step(high - low, 5);
        Axis {
            low: low.div_euclid(step) * step,
            high: -(-high).div_euclid(step) * step,
            from,
            to,
        }
    }

    /// Slots, each with a stretch of its own, which ends at its number.
    pub fn of_slots(first: usize, last: usize, from: f64, to: f64) -> Axis {
        Axis {
            low: first as i64 - 1,
            high: last as i64,
            from,
            to,
        }
    }

    /// Limits, each with a stretch of its own, which begins at its number.
    pub fn of_limits(first: u32, last: u32, from: f64, to: f64) -> Axis {
        Axis {
            low: first.into(),
            high: i64::from(last) + 1,
            from,
            to,
        }
    }

    /// The lowest value, at which a curve begins.
    pub fn first(&self) -> f64 {
        self.low as f64
    }

    /// The place of the highest value.
    pub fn end(&self) -> f64 {
        self.to
    }

    pub fn place(&self, value: f64) -> f64 {
        let part = (value - self.low as f64) / (self.high - self.low) as f64;
        self.from + part * (self.to - self.from)
    }

    /// At most so many round numbers, and a few more.
    pub fn ticks(&self, most: i64) -> impl Iterator<Item = i64> {
        let step = step(self.high - self.low, most);
        let first = -(-self.low).div_euclid(step);
        let last = self.high.div_euclid(step);
        (first..=last).map(move |count| count * step)
    }
}

/// The smallest of 1, 2, 5, 10, 20, .. that goes into a range no more often than so.
fn step(range: i64, most: i64) -> i64 {
    let mut tens = 1;
    loop {
        for times in [1, 2, 5] {
            if range <= most * times * tens {
                return times * tens;
            }
        }
        tens *= 10;
    }
}

/// A number with commas.
pub fn shown(number: i64) -> String {
    let digits = number.unsigned_abs().to_string();
    let mut text = String::from(if number < 0 { "\u{2212}" } else { "" });
    for (place, digit) in digits.chars().enumerate() {
        if place > 0 && (digits.len() - place).is_multiple_of(3) {
            text.push(',');
        }
        text.push(digit);
    }
    text
}
