//! One record a slot, two readings of the fill. Document 02, 2.1.

use crate::refusal::Refusal;
use crate::regulator::{Regulator, Row};

/// What is kept of a slot.
#[derive(Clone, Copy, Debug, PartialEq, Eq)]
pub struct Record {
    pub held_before: u64,
    pub admitted: u64,
    pub dropped: u64,
    pub departed: u64,
}

impl Record {
    /// The record of a row, and of the held total before its slot.
    pub fn of_row(row: &Row, held_before: u64) -> Record {
        Record {
            held_before,
            admitted: row.admitted,
            dropped: row.dropped,
            departed: row.departed,
        }
    }

    /// What the order form's reader sees: the fill at the slot's end.
    pub fn form_fill(&self) -> u64 {
        self.held_before + self.admitted - self.departed
    }

    /// What the bench's reader sees: the fill before departures.
    pub fn bench_fill(&self) -> u64 {
        self.held_before + self.admitted
    }
}

/// The records of rows that follow each other from a fresh regulator on.
pub fn records(rows: &[Row]) -> Vec<Record> {
    let before = [0].into_iter().chain(rows.iter().map(|row| row.held));
    let record = |(row, held_before)| Record::of_row(row, held_before);
    rows.iter().zip(before).map(record).collect()
}

/// The highest of each fill over the slots so far, 0 before the first.
#[derive(Clone, Copy, Debug, Default, PartialEq, Eq)]
pub struct Peaks {
    pub form: u64,
    pub bench: u64,
}

impl Peaks {
    pub fn raised_by(self, record: &Record) -> Peaks {
        Peaks {
            form: self.form.max(record.form_fill()),
            bench: self.bench.max(record.bench_fill()),
        }
    }

    /// Over all of these slots.
    pub fn over(records: &[Record]) -> Peaks {
        records.iter().fold(Peaks::default(), Peaks::raised_by)
    }
}

/// A live regulator that answers records and carries both peaks.
#[derive(Clone, Debug, PartialEq, Eq)]
pub struct Metered {
    regulator: Regulator,
    peaks: Peaks,
}

impl Metered {
    pub fn set_up(table: &[u64], delay: u64, buffer: u64) -> Result<Metered, Refusal> {
        Ok(Metered {
            regulator: Regulator::set_up(table, delay, buffer)?,
            peaks: Peaks::default(),
        })
    }

    /// The slot's record; a refused slot alters neither the regulator nor a peak.
    pub fn slot(&mut self, arrivals: u64) -> Result<Record, Refusal> {
        let held_before = self.held();
        let row = self.regulator.slot(arrivals)?;
        let record = Record::of_row(&row, held_before);
        self.peaks = self.peaks.raised_by(&record);
        Ok(record)
    }

    pub fn peaks(&self) -> Peaks {
        self.peaks
    }

    /// The held total after the last slot.
    pub fn held(&self) -> u64 {
        self.regulator.totals().held(self.regulator.slots_taken())
    }
}

#[cfg(test)]
mod tests {
    use super::*;
    use crate::layout::NO_DELAY;
    use crate::{stream, trace};

    #[test]
    fn form_and_bench_read_bella_from_one_record() {
        let stream = stream::read(include_bytes!("../../../streams/bella.stream"));
        let stream = stream.expect("an accepted sample");
        let records = records(&trace::rows(&stream).expect("an accepted sample"));
        let wanted = Peaks {
            form: 30,
            bench: 36,
        };
        assert_eq!(Peaks::over(&records), wanted);
        let metered = Metered::set_up(&stream.table, stream.delay, stream.buffer);
        let mut metered = metered.expect("an accepted sample");
        for (&count, record) in stream.arrivals.iter().zip(&records) {
            assert_eq!(metered.slot(count), Ok(*record));
        }
        assert_eq!(metered.peaks(), wanted);
    }

    /// Document 01's row with both limits none, with a buffer limit that drops nothing: held 3, 2, 4.
    #[test]
    fn a_row_of_the_document_as_records() {
        let none = u64::from(NO_DELAY);
        let mut metered = Metered::set_up(&[0, 2, 3], none, 9).expect("a set-up");
        assert_eq!(metered.peaks(), Peaks { form: 0, bench: 0 });
        let answered = [5, 0, 4].map(|count| metered.slot(count).expect("an accepted slot"));
        let record = |held_before, admitted, departed| Record {
            held_before,
            admitted,
            dropped: 0,
            departed,
        };
        assert_eq!(
            answered,
            [record(0, 5, 2), record(3, 0, 1), record(2, 4, 2)]
        );
        assert_eq!(answered.map(|record| record.form_fill()), [3, 2, 4]);
        assert_eq!(answered.map(|record| record.bench_fill()), [5, 3, 6]);
        assert_eq!(metered.peaks(), Peaks { form: 4, bench: 6 });
    }

    #[test]
    fn a_refused_slot_alters_neither_peak() {
        let mut metered = Metered::set_up(&[0, 2, 3], 1, 9).expect("a set-up");
        metered.slot(5).expect("an accepted slot");
        let before = metered.clone();
        assert_eq!(metered.slot(1_000_001), Err(Refusal::TooManyArrivals));
        assert_eq!(metered, before);
    }

    /// The two fills differ by what departs in the slot.
    #[test]
    fn fills_of_every_slot() {
        let mut metered = Metered::set_up(&[0, 4, 8, 12, 16, 17, 18], 255, 4).expect("a set-up");
        let records = [6; 4].map(|count| metered.slot(count).expect("an accepted slot"));
        assert_eq!(records.map(|record| record.form_fill()), [0, 0, 0, 0]);
        assert_eq!(records.map(|record| record.bench_fill()), [4, 4, 4, 4]);
    }
}
