//! What the work of a case answers: sides are measured beside each other only after they gave the same
//! answers.

use bezhantiru::{Bound, Record, Refusal, Size, boundary};

use crate::cases::{Case, Job, LIVE_SLOTS, Side};
use crate::quick::Refused;
use crate::work::path_lists;
use crate::{quick, quick_again, samples};

impl Case {
    /// Every number that the work answers.
    fn answers(&self) -> Result<Vec<u64>, Refused> {
        match self.job {
            Job::Live => self.live_answers(),
            Job::Run(slots) => {
                let mut lists = [(); 3].map(|()| vec![0; slots]);
                self.run_once(&samples::arrivals(&self.table, slots), &mut lists)?;
                Ok(lists.concat().into_iter().map(u64::from).collect())
            }
            Job::Path { stages, slots } => {
                let mut lists = path_lists(stages, slots);
                let tables = samples::stages(&self.table, stages);
                self.path_once(&tables, &samples::arrivals(&self.table, slots), &mut lists)?;
                // What one regulator answers too: the entrance and the last stage.
                lists[2].drain(..(stages - 1) * slots);
                Ok(lists.concat().into_iter().map(u64::from).collect())
            }
            Job::Square(slots) => {
                let mut lists = [(); 3].map(|()| vec![0; slots]);
                let square = samples::square(&self.table)?;
                self.square_once(&square, &samples::arrivals(&self.table, slots), &mut lists)?;
                Ok(lists.concat().into_iter().map(u64::from).collect())
            }
            Job::Size { sought, slots } => {
                let arrivals = samples::arrivals(&self.table, slots);
                let most_lost = self.lost(&arrivals)?;
                Ok(match self.size_once(sought, &arrivals, most_lost)? {
                    Size::Smallest { limit, lost } => vec![limit.into(), lost.into()],
                    Size::NoneDoes { lost, .. } => vec![lost.into()],
                })
            }
            Job::Question => {
                let Bound { packets, piece } = self.ask()?;
                Ok(vec![packets, piece.into()])
            }
        }
    }

    /// Every slot's record, or what its preview said, and both peaks after it.
    fn live_answers(&self) -> Result<Vec<u64>, Refused> {
        let (table, delay, buffer) = (&self.table, self.delay, self.buffer);
        let mut library =
            bezhantiru::Regulator::set_up(table, delay, buffer).map_err(Refusal::number)?;
        let mut whole = library.state().clone();
        let mut rust = quick::Regulator::set_up(table, delay, buffer)?;
        let mut again = quick_again::Regulator::set_up(table, delay, buffer)?;
        let mut slot = |count| -> Result<(Record, [u64; 2]), Refused> {
            Ok(match self.side {
                Side::Library => {
                    let record = library.slot(count).map_err(Refusal::number)?;
                    (record, [library.form_peak(), library.bench_peak()])
                }
                Side::Preview => {
                    let seen = library.preview(count).map_err(Refusal::number)?;
                    library.slot(count).map_err(Refusal::number)?;
                    (seen.record, [library.form_peak(), library.bench_peak()])
                }
                Side::Whole => {
                    let record = Record::of_row(boundary::slot(&mut whole, count));
                    let record = record.map_err(Refusal::number)?;
                    (record, [whole.form_peak, whole.bench_peak])
                }
                Side::Rust | Side::Sliding => {
                    (rust.slot(count)?, [rust.form_peak(), rust.bench_peak()])
                }
                Side::Again => (again.slot(count)?, [again.form_peak(), again.bench_peak()]),
            })
        };
        let mut answers = Vec::new();
        for count in samples::arrivals(table, LIVE_SLOTS) {
            let (record, peaks) = slot(count.into())?;
            let Record {
                held_before,
                admitted,
                dropped,
                departed,
            } = record;
            answers.extend([held_before, admitted, dropped, departed]);
            answers.extend(peaks);
        }
        Ok(answers)
    }
}

impl Job {
    /// Whether both have the same answers; a path's and a square's are those of a run.
    fn alike(self, other: Job) -> bool {
        let as_run = |job| match job {
            Job::Path { slots, .. } | Job::Square(slots) => Job::Run(slots),
            _ => job,
        };
        as_run(self) == as_run(other)
    }
}

/// Ends with a problem unless every case, doing the same job, gives the same answers.
pub fn agree(cases: &[Case]) -> Result<(), String> {
    let mut before: Option<(&Case, Vec<u64>)> = None;
    for case in cases {
        let answers = case
            .answers()
            .map_err(|number| format!("{case}: refused {number}"))?;
        match &before {
            Some((other, wanted)) if other.job.alike(case.job) && *wanted != answers => {
                return Err(format!("{case} and {other} do not answer alike"));
            }
            _ => before = Some((case, answers)),
        }
    }
    Ok(())
}
