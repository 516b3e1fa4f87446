//! Pieces of work, timed in turn.

use std::hint::black_box;
use std::time::{Duration, Instant};

/// So often is each piece of work timed.
pub const ROUNDS: usize = 401;
/// Work that is shorter is repeated within a round. Rounds are shorter than the processor is lent
/// to a thread, so that what else the machine does meets few of them.
const SHORTEST: Duration = Duration::from_micros(200);

/// Something that can be done again and again.
pub type Work<'a> = Box<dyn FnMut() + 'a>;

/// Nanoseconds of each piece of work, round after round.
pub struct Timed {
    rounds: Vec<Vec<f64>>,
}

impl Timed {
    /// Times every piece of work in every round.
    pub fn in_turn(works: &mut [Work<'_>]) -> Timed {
        Timed::of_rounds(ROUNDS, works)
    }

    /// So many rounds, each of them beginning with another piece of work.
    pub fn of_rounds(rounds: usize, works: &mut [Work<'_>]) -> Timed {
        let repeats: Vec<u32> = works.iter_mut().map(repeats).collect();
        let mut round = |first: usize| {
            let mut times = vec![0.0; works.len()];
            for step in 0..works.len() {
                let place = (first + step) % works.len();
                times[place] = time(&mut works[place], repeats[place]);
            }
            times
        };
        Timed {
            rounds: (0..rounds).map(&mut round).collect(),
        }
    }

    /// The median time of one piece of work.
    pub fn time(&self, work: usize) -> f64 {
        median(self.rounds.iter().map(|times| times[work]).collect())
    }

    /// The median, over the rounds, of one piece's time in relation to another's.
    pub fn ratio(&self, work: usize, to: usize) -> f64 {
        let ratios = self.rounds.iter().map(|times| times[work] / times[to]);
        median(ratios.collect())
    }
}

/// How often the work has to be done to last for the shortest round.
fn repeats(work: &mut Work<'_>) -> u32 {
    let mut repeats = 1;
    while time(work, repeats) * f64::from(repeats) < SHORTEST.as_nanos() as f64 {
        repeats *= 2;
    }
    repeats
}

/// Nanoseconds for one piece of work, done so often.
fn time(work: &mut Work<'_>, repeats: u32) -> f64 {
    let work = black_box(work);
    let start = Instant::now();
    for _ in 0..repeats {
        work();
    }
    start.elapsed().as_nanos() as f64 / f64::from(repeats)
}

fn median(mut values: Vec<f64>) -> f64 {
    values.sort_by(f64::total_cmp);
    values[values.len() / 2]
}
