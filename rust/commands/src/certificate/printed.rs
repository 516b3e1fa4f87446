//! A printed table or certificate, line by line and number by number.

/// The rows of slots 1, 2, .. and the last line, if that is closed by a line feed.
pub struct Printed<R> {
    pub rows: Vec<R>,
    last: Option<String>,
}

impl<R> Printed<R> {
    /// A text with this heading, a row for each of so many slots and a last line, each closed by a line
    /// feed, and nothing after them; or its first line that is another. `row` understands the fields
    /// after the slot.
    pub fn read(
        text: &[u8],
        slots: usize,
        heading: &str,
        row: impl Fn(&[&str]) -> Option<R>,
    ) -> Result<Printed<R>, String> {
        // What is no text becomes a sign that no line has.
        let text = String::from_utf8_lossy(text);
        let mut lines = text.split_inclusive('\n');
        let mut line = || lines.next()?.strip_suffix('\n');
        if line() != Some(heading) {
            return Err(format!("line 1: has to be '{heading}'"));
        }
        let mut rows = Vec::with_capacity(slots);
        for slot in 1..=slots {
            let fields: Vec<&str> = line().unwrap_or_default().split(' ').collect();
            let understood = row(&fields[1..]).filter(|_| fields[0] == slot.to_string());
            let wrong = || format!("line {}: has to be the row of slot {slot}", slot + 1);
            rows.push(understood.ok_or_else(wrong)?);
        }
        let last = line().map(String::from);
        match lines.next() {
            None => Ok(Printed { rows, last }),
            Some(_) => Err(format!("line {}: has to be the end", slots + 3)),
        }
    }

    /// The last line has to be this one.
    pub fn check_last(&self, wanted: &str) -> Result<(), String> {
        let number = self.rows.len() + 2;
        let holds = self.last.as_deref() == Some(wanted);
        need(holds, || format!("line {number}: has to be '{wanted}'"))
    }

    /// Every row has to pass; what is wrong names its slot.
    pub fn check_rows(
        &self,
        check: impl Fn(usize, &R) -> Result<(), String>,
    ) -> Result<(), String> {
        let in_slot = |slot: usize, wrong: String| format!("slot {slot}: {wrong}");
        let mut rows = (1..).zip(&self.rows);
        rows.try_for_each(|(slot, row)| check(slot, row).map_err(|wrong| in_slot(slot, wrong)))
    }
}

pub fn need(holds: bool, wrong: impl FnOnce() -> String) -> Result<(), String> {
    if holds { Ok(()) } else { Err(wrong()) }
}

/// A number of a row has to be the one that it is redone as.
pub fn has_to_be(name: &str, found: u64, wanted: u64) -> Result<(), String> {
    need(found == wanted, || format!("{name} has to be {wanted}"))
}

/// A number as it is printed: at most ten digits, and no 0 before others.
pub fn number(word: &str) -> Option<u64> {
    let digits = word.len() <= 10 && word.bytes().all(|byte| byte.is_ascii_digit());
    let plain = digits && (word == "0" || !word.starts_with('0'));
    word.parse().ok().filter(|_| plain)
}

/// As many fields, which all are numbers.
pub fn numbers<const N: usize>(fields: &[&str]) -> Option<[u64; N]> {
    let found: Option<Vec<u64>> = fields.iter().map(|word| number(word)).collect();
    found?.try_into().ok()
}

/// A number as the library takes it. No count or slot above 32 bits is right, and neither is their
/// largest number.
pub fn narrow(number: u64) -> u32 {
    u32::try_from(number).unwrap_or(u32::MAX)
}
