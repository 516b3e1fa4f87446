//! The work of a case, done again and again at ever other places of memory and of the stack.

use std::hint::black_box;

use bezhantiru::{Bound, Lists, Refusal, Size, boundary, path, square};
use bezhantiru::{smallest_buffer, smallest_delay};

use crate::cases::{Case, Job, LAST_QUESTION, LIVE_SLOTS, Side, Sought};
use crate::clock::Work;
use crate::quick::Refused;
use crate::{quick, quick_again, samples, sliding};

/// So many places of memory and of the stack take turns.
const PLACES: usize = 37;

impl Case {
    /// The work, ready to be done again and again.
    pub fn work(&self) -> Result<Work<'_>, String> {
        Ok(moved(self.work_in_place()?))
    }

    fn work_in_place(&self) -> Result<Work<'_>, String> {
        match self.job {
            Job::Live => self.live_work(),
            Job::Run(slots) => {
                let arrivals = samples::arrivals(&self.table, slots);
                let mut lists = [(); 3].map(|()| vec![0; slots]);
                Ok(Box::new(move || {
                    let _ = black_box(self.run_once(black_box(&arrivals), &mut lists));
                }))
            }
            Job::Path { stages, slots } => {
                let arrivals = samples::arrivals(&self.table, slots);
                let tables = samples::stages(&self.table, stages);
                let mut lists = path_lists(stages, slots);
                Ok(Box::new(move || {
                    let done = self.path_once(&tables, black_box(&arrivals), &mut lists);
                    let _ = black_box(done);
                }))
            }
            Job::Square(slots) => {
                let arrivals = samples::arrivals(&self.table, slots);
                let square = samples::square(&self.table).map_err(refused)?;
                let mut lists = [(); 3].map(|()| vec![0; slots]);
                Ok(Box::new(move || {
                    let done = self.square_once(black_box(&square), &arrivals, &mut lists);
                    let _ = black_box(done);
                }))
            }
            Job::Size { sought, slots } => {
                let arrivals = samples::arrivals(&self.table, slots);
                let most_lost = self.lost(&arrivals).map_err(refused)?;
                Ok(Box::new(move || {
                    let done = self.size_once(sought, black_box(&arrivals), most_lost);
                    let _ = black_box(done);
                }))
            }
            Job::Question => Ok(Box::new(|| {
                let _ = black_box(self.ask());
            })),
        }
    }

    fn live_work(&self) -> Result<Work<'_>, String> {
        let arrivals = samples::arrivals(&self.table, LIVE_SLOTS);
        let arrivals: Vec<u64> = arrivals.into_iter().map(u64::from).collect();
        let (table, delay, buffer) = (&self.table, self.delay, self.buffer);
        Ok(match self.side {
            Side::Library => {
                let fresh = bezhantiru::Regulator::set_up(table, delay, buffer);
                let fresh = fresh.map_err(|refusal| refusal.to_string())?;
                Box::new(feeding(arrivals, fresh, bezhantiru::Regulator::slot))
            }
            Side::Preview => {
                let live = bezhantiru::Regulator::set_up(table, delay, buffer);
                let mut live = live.map_err(|refusal| refusal.to_string())?;
                for &count in &arrivals {
                    live.slot(count).map_err(|refusal| refusal.to_string())?;
                }
                let preview = |live: &mut bezhantiru::Regulator, count| live.preview(count);
                Box::new(feeding(arrivals, live, preview))
            }
            Side::Whole => {
                let fresh = boundary::set_up(table, delay, buffer).regulator;
                Box::new(feeding(arrivals, fresh, boundary::slot))
            }
            Side::Rust | Side::Sliding => {
                let fresh = quick::Regulator::set_up(table, delay, buffer).map_err(refused)?;
                Box::new(feeding(arrivals, fresh, quick::Regulator::slot))
            }
            Side::Again => {
                let fresh = quick_again::Regulator::set_up(table, delay, buffer);
                let fresh = fresh.map_err(refused)?;
                Box::new(feeding(arrivals, fresh, quick_again::Regulator::slot))
            }
        })
    }

    pub(crate) fn run_once(
        &self,
        arrivals: &[u32],
        lists: &mut [Vec<u32>; 3],
    ) -> Result<(), Refused> {
        let lists = lent(lists);
        let (table, delay, buffer) = (&self.table, self.delay, self.buffer);
        match self.side {
            Side::Library | Side::Preview | Side::Whole => {
                bezhantiru::run(table, delay, buffer, arrivals, lists).map_err(Refusal::number)
            }
            Side::Rust => quick::run(table, delay, buffer, arrivals, lists),
            Side::Again => quick_again::run(table, delay, buffer, arrivals, lists),
            Side::Sliding => sliding::run(table, delay, buffer, arrivals, lists),
        }
    }

    pub(crate) fn path_once(
        &self,
        tables: &[Vec<u32>],
        arrivals: &[u32],
        lists: &mut [Vec<u32>; 3],
    ) -> Result<(), Refused> {
        let done = path::run(tables, self.delay, self.buffer, arrivals, lent(lists));
        done.map_err(Refusal::number)
    }

    pub(crate) fn square_once(
        &self,
        square: &boundary::Square,
        arrivals: &[u32],
        lists: &mut [Vec<u32>; 3],
    ) -> Result<(), Refused> {
        let done = square::run(square, self.delay, self.buffer, arrivals, lent(lists));
        done.map_err(Refusal::number)
    }

    /// What the run loses of a trace.
    pub(crate) fn lost(&self, arrivals: &[u32]) -> Result<u32, Refused> {
        let mut lists = [(); 3].map(|()| vec![0; arrivals.len()]);
        self.run_once(arrivals, &mut lists)?;
        Ok(lists[1].iter().sum())
    }

    pub(crate) fn size_once(
        &self,
        sought: Sought,
        arrivals: &[u32],
        most_lost: u32,
    ) -> Result<Size, Refused> {
        let size = match sought {
            Sought::Buffer => smallest_buffer(&self.table, self.delay, arrivals, most_lost),
            Sought::Delay => smallest_delay(&self.table, self.buffer, arrivals, most_lost),
        };
        size.map_err(Refusal::number)
    }

    pub(crate) fn ask(&self) -> Result<Bound, Refused> {
        let (table, window) = (black_box(&self.table), black_box(LAST_QUESTION));
        match self.side {
            Side::Library | Side::Preview | Side::Whole => {
                bezhantiru::envelope(table, window).map_err(Refusal::number)
            }
            Side::Rust | Side::Sliding => quick::envelope(table, window),
            Side::Again => quick_again::envelope(table, window),
        }
    }
}

/// The lists that a path's run fills.
pub(crate) fn path_lists(stages: usize, slots: usize) -> [Vec<u32>; 3] {
    [slots, slots, stages * slots].map(|length| vec![0; length])
}

fn lent([admitted, dropped, departed]: &mut [Vec<u32>; 3]) -> Lists<'_> {
    Lists {
        admitted,
        dropped,
        departed,
    }
}

fn refused(number: Refused) -> String {
    format!("refused {number}")
}

/// Feeds every slot to a fresh regulator, which lies at another place of memory in each turn.
fn feeding<R: Clone, A>(
    arrivals: Vec<u64>,
    fresh: R,
    slot: impl Fn(&mut R, u64) -> A,
) -> impl FnMut() {
    let mut places = vec![fresh.clone(); PLACES];
    let mut turn = 0;
    move || {
        turn = (turn + 1) % PLACES;
        let regulator = &mut places[turn];
        regulator.clone_from(&fresh);
        for &count in &arrivals {
            black_box(slot(regulator, black_box(count)));
        }
    }
}

/// The same work. Where on the stack it is done moves the times of some of it by a third or more, so
/// each turn is done at another place.
pub(crate) fn moved(mut work: Work<'_>) -> Work<'_> {
    let mut turn = 0;
    Box::new(move || {
        turn = (turn + 1) % PLACES;
        deeper(turn, &mut *work);
    })
}

/// Does the work so many calls further down the stack.
#[inline(never)]
fn deeper(calls: usize, work: &mut dyn FnMut()) {
    if calls == 0 {
        work();
    } else {
        deeper(calls - 1, work);
        // Room on the stack, and something left to do, so that the call is no jump.
        black_box([calls; 4]);
    }
}
