//! What has to stand beside the rows of a page.

use std::iter::Skip;
use std::str::Lines;

use reference::closure;
use reference::layout::StreamFile;

/// What stands beside a row, by the printed certificate, the stream's arrivals and the reference's closure.
pub struct Reasons<'a> {
    lines: Skip<Lines<'a>>,
    /// A, U and which slots are certified, by slots 0, 1, ..
    arrived: Vec<u64>,
    admitted: Vec<u64>,
    certified: Vec<bool>,
    f: Vec<u64>,
    delay: u64,
    buffer: u64,
}

impl Reasons<'_> {
    pub fn of<'a>(stream: &StreamFile, certificate: &'a str) -> Reasons<'a> {
        let mut arrived = vec![0];
        for count in stream.arrivals() {
            arrived.push(arrived[arrived.len() - 1] + u64::from(count));
        }
        let table: Vec<u64> = stream.table.iter().map(|entry| (*entry).into()).collect();
        let f = closure::by_recursion(&table, arrived.len() + 64);
        Reasons {
            lines: certificate.lines().skip(1),
            arrived,
            admitted: vec![0],
            certified: vec![true],
            f,
            delay: stream.header.delay.into(),
            buffer: stream.header.buffer.into(),
        }
    }

    /// Why nobody has admitted more by the next slot, and the limit that has dropped some of it.
    pub fn next(&mut self, row: &str) -> [String; 2] {
        let fields: Vec<&str> = self.lines.next().expect("a line").split(' ').collect();
        let row: Vec<u64> = row
            .split(' ')
            .map(|word| word.parse().expect("a number"))
            .collect();
        let [slot, _, _, dropped, departed, held] = row[..] else {
            panic!("{row:?}")
        };
        let admitted: u64 = fields[1].parse().expect("a number");
        self.admitted.push(admitted);
        let mut by = String::new();
        if dropped > 0 {
            by = format!("{} limit", fields[3].replace('-', "delay"));
            assert!(fields[3] != "buffer" || held + departed == self.buffer);
        }
        if fields[3] == "-" {
            let due = slot + self.delay;
            assert!(due >= self.arrived.len() as u64);
            self.certified.push(false);
            let why = format!("not certified, since slot {due}, its deadline, is after the last");
            return [format!("{admitted} by slot {slot}: {why}"), by];
        }
        let first: usize = fields[2].parse().expect("a slot");
        let (window, last) = (slot as usize - first, slot as usize);
        let sum = match fields[3] {
            "arrivals" => {
                let (now, then) = (self.arrived[last], self.arrived[first]);
                format!("A({slot}) - A({first}) = {now} - {then} = {}", fields[4])
            }
            "delay" => {
                let window = window + self.delay as usize;
                format!("f({window}) = {}", self.f[window])
            }
            _ => {
                let (window, q) = (window - 1, self.buffer);
                format!("f({window}) + q = {} + {q} = {}", self.f[window], fields[4])
            }
        };
        let loose = if self.certified[first] {
            ""
        } else {
            ", which is not certified,"
        };
        self.certified.push(self.certified[first]);
        let (before, word) = (self.admitted[first], fields[3]);
        [
            format!("{admitted} by slot {slot}: {before} by slot {first}{loose} and {sum}, {word}"),
            by,
        ]
    }
}
