//! Anyone's rows of a stream: a table as `bin/loss-table` prints it, or any text with a heading that
//! names the columns `admitted` and `departed` and then one line a slot. Columns are separated by
//! tabs, commas or semicolons, the first of these that the heading has, or else by spaces.

use std::ffi::OsStr;

use crate::{Problem, read_at_most};

/// No rows of 4,096 slots are as long as this, even with many columns.
const MOST_BYTES: u64 = 1 << 24;

/// The packets of each slot.
#[derive(Clone, Debug, PartialEq, Eq)]
pub struct Rows {
    pub admitted: Vec<u32>,
    pub departed: Vec<u32>,
}

impl Rows {
    /// Those in a file, for a stream with these arrivals. What is no text becomes signs that are no
    /// numbers, so that its line is named.
    pub fn of_file(file: &OsStr, arrivals: &[u32]) -> Result<Rows, Problem> {
        let bytes = read_at_most(MOST_BYTES, file)?;
        if bytes.len() as u64 == MOST_BYTES {
            return Err(Problem::of_file(file, "longer than any rows"));
        }
        let rows = Rows::read(&String::from_utf8_lossy(&bytes), arrivals);
        rows.map_err(|wrong| Problem::of_file(file, wrong))
    }

    /// Those in a text, or what is wrong, and in which line. A column `arrived` has to have the
    /// stream's arrivals.
    pub fn read(text: &str, arrivals: &[u32]) -> Result<Rows, String> {
        let slots = arrivals.len();
        let mut lines = (1..).zip(text.trim_end().lines());
        let heading = lines.find(|(_, line)| !line.trim().is_empty());
        let (number, heading) = heading.ok_or("there is no heading and no row")?;
        let columns = Columns::named(heading).map_err(|wrong| in_line(number, &wrong))?;
        let (mut admitted, mut departed) = (Vec::new(), Vec::new());
        let mut last = number;
        for (number, line) in lines {
            let row = columns.row(line, admitted.len() + 1, arrivals);
            match row.map_err(|wrong| in_line(number, &wrong))? {
                Row::Of(let_in, let_go) => {
                    admitted.push(let_in);
                    departed.push(let_go);
                }
                Row::Totals if number == text.trim_end().lines().count() => break,
                Row::Totals => return Err(in_line(number, "a line of totals before the end")),
            }
            last = number;
        }
        if admitted.len() < slots {
            let found = admitted.len();
            return Err(in_line(
                last,
                &format!("the rows end after slot {found} of {slots}"),
            ));
        }
        Ok(Rows { admitted, departed })
    }
}

fn in_line(number: usize, wrong: &str) -> String {
    format!("line {number}: {wrong}")
}

enum Row {
    Of(u32, u32),
    Totals,
}

/// Where the columns of a heading stand.
struct Columns {
    separator: Option<char>,
    count: usize,
    slot: Option<usize>,
    arrived: Option<usize>,
    admitted: usize,
    departed: usize,
}

impl Columns {
    fn named(heading: &str) -> Result<Columns, String> {
        let separator = ['\t', ',', ';']
            .into_iter()
            .find(|sign| heading.contains(*sign));
        let names = fields(heading, separator);
        let place = |wanted: &str| {
            let mut places = (0..names.len()).filter(|place| names[*place] == wanted);
            match (places.next(), places.next()) {
                (_, Some(_)) => Err(format!("the heading names the column '{wanted}' twice")),
                (found, None) => Ok(found),
            }
        };
        let needed = |wanted: &str| {
            place(wanted)?.ok_or_else(|| format!("the heading names no column '{wanted}'"))
        };
        Ok(Columns {
            separator,
            count: names.len(),
            slot: place("slot")?,
            arrived: place("arrived")?,
            admitted: needed("admitted")?,
            departed: needed("departed")?,
        })
    }

    /// The row of a slot.
    fn row(&self, line: &str, slot: usize, arrivals: &[u32]) -> Result<Row, String> {
        let fields = fields(line, self.separator);
        if fields.first() == Some(&"total") {
            return Ok(Row::Totals);
        }
        if fields.len() != self.count {
            let (found, wanted) = (fields.len(), self.count);
            return Err(format!("{found} columns, where the heading has {wanted}"));
        }
        let Some(&arrived) = arrivals.get(slot - 1) else {
            let slots = arrivals.len();
            return Err(format!("a row more than the stream's {slots} slots"));
        };
        if let Some(named) = self.slot.map(|place| fields[place])
            && named != slot.to_string()
        {
            return Err(format!("slot {named:?}, where slot {slot} has to stand"));
        }
        let count = |place: usize| {
            let word = fields[place];
            let digits = !word.is_empty() && word.bytes().all(|byte| byte.is_ascii_digit());
            match word.parse() {
                Ok(count) if digits => Ok(count),
                Err(_) if digits => Err(format!("{word} is above 4,294,967,295")),
                _ => Err(format!("{word:?} is no number")),
            }
        };
        if let Some(place) = self.arrived
            && count(place)? != arrived
        {
            let named = fields[place];
            return Err(format!(
                "{named} arrived in slot {slot}, where the stream has {arrived}"
            ));
        }
        Ok(Row::Of(count(self.admitted)?, count(self.departed)?))
    }
}

fn fields(line: &str, separator: Option<char>) -> Vec<&str> {
    match separator {
        Some(sign) => line.split(sign).map(str::trim).collect(),
        None => line.split_whitespace().collect(),
    }
}

#[cfg(test)]
mod tests {
    use super::*;

    const PRINTED: &str = "slot arrived admitted dropped departed held\n\
                           1 6 4 2 3 1\n2 6 5 2 4 0\ntotal 24 16 8 16 0\n";

    fn rows(admitted: &[u32], departed: &[u32]) -> Result<Rows, String> {
        let [admitted, departed] = [admitted, departed].map(<[u32]>::to_vec);
        Ok(Rows { admitted, departed })
    }

    #[test]
    fn tables_and_other_texts() {
        let wanted = rows(&[4, 5], &[3, 4]);
        for text in [
            PRINTED,
            "departed admitted\n3 4\n4 5",
            "\n  admitted\tdeparted\r\n4\t3\r\n 5 \t4\r\n\n",
            "name;departed;slot;admitted\n;3;1;4\n;4;2;5\n",
            "admitted,what we think,departed\n4,,3\n5,a b,4\n",
        ] {
            assert_eq!(Rows::read(text, &[6, 6]), wanted, "{text:?}");
        }
        assert_eq!(Rows::read("admitted departed\n", &[]), rows(&[], &[]));
        let most = "admitted departed\n4294967295 0004294967295";
        assert_eq!(Rows::read(most, &[6]), rows(&[u32::MAX], &[u32::MAX]));
    }

    #[test]
    fn arrivals_are_the_stream_s() {
        let of = |text, arrivals: [u32; 2]| Rows::read(text, &arrivals);
        assert_eq!(of(PRINTED, [6, 6]), rows(&[4, 5], &[3, 4]));
        let without = "admitted departed\n4 3\n5 4\n";
        assert_eq!(of(without, [9, 9]), rows(&[4, 5], &[3, 4]));
        for (text, arrivals, wanted) in [
            (
                PRINTED,
                [6, 7],
                "line 3: 6 arrived in slot 2, where the stream has 7",
            ),
            (
                "arrived,admitted,departed\nsix,4,3\n",
                [6, 6],
                "line 2: \"six\" is no number",
            ),
            (
                "arrived admitted arrived departed",
                [6, 6],
                "line 1: the heading names the column 'arrived' twice",
            ),
        ] {
            assert_eq!(of(text, arrivals), Err(String::from(wanted)), "{text:?}");
        }
    }

    #[test]
    fn what_is_wrong_names_its_line() {
        for (text, wanted) in [
            ("", "there is no heading and no row"),
            (
                "refused 6\n",
                "line 1: the heading names no column 'admitted'",
            ),
            (
                "\n\nadmitted",
                "line 3: the heading names no column 'departed'",
            ),
            (
                "departed admitted departed",
                "line 1: the heading names the column 'departed' twice",
            ),
            (
                "admitted departed\n1 1\n1",
                "line 3: 1 columns, where the heading has 2",
            ),
            (
                "admitted departed\n1 1\n\n1 1",
                "line 3: 0 columns, where the heading has 2",
            ),
            ("admitted departed\n1 x\n1 1", "line 2: \"x\" is no number"),
            (
                "admitted departed\n1 1\n-1 1",
                "line 3: \"-1\" is no number",
            ),
            (
                "admitted departed\n1 1\n+1 1",
                "line 3: \"+1\" is no number",
            ),
            ("admitted,departed\n1,1\n,1", "line 3: \"\" is no number"),
            (
                "admitted departed\n1 4294967296\n1 1",
                "line 2: 4294967296 is above 4,294,967,295",
            ),
            (
                "slot admitted departed\n1 1 1\n3 1 1",
                "line 3: slot \"3\", where slot 2 has to stand",
            ),
            (
                "admitted departed\n1 1\n",
                "line 2: the rows end after slot 1 of 2",
            ),
            (
                "admitted departed\n1 1\n1 1\n1 1",
                "line 4: a row more than the stream's 2 slots",
            ),
            (
                "admitted departed\n1 1\ntotal 1\n1 1",
                "line 3: a line of totals before the end",
            ),
        ] {
            assert_eq!(
                Rows::read(text, &[6, 6]),
                Err(String::from(wanted)),
                "{text:?}"
            );
        }
    }
}
