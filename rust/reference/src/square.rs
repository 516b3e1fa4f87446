//! An envelope that varies with time: a square in place of a table. Document 02, 2.10.

use crate::refusal::{self, Refusal};
use crate::regulator::{Limits, Row, Totals};
use crate::trace::Lists;
use crate::{closure, least};

/// The last slot that a square speaks of; the first is 0.
pub const LAST_SLOT: usize = 32;
const SIDE: usize = LAST_SLOT + 1;

/// F(s,t), which bounds departures in slots s+1 to t, in row s at place t.
pub type Square = [[u64; SIDE]; SIDE];

/// Lemma 2.1 (iv): F*(s,s) is 0, and F*(s,t) is the least of F*(s,u) + F(u,t) over the slots u from s
/// to t-1.
pub fn close(square: &Square) -> Square {
    let mut closed = [[0; SIDE]; SIDE];
    for (s, row) in closed.iter_mut().enumerate() {
        for t in s + 1..SIDE {
            row[t] = least((s..t).map(|u| row[u] + square[u][t]));
        }
    }
    closed
}

/// F*(s,t) once more, as the least sum along chains of slots rising from s to t. The work doubles with
/// every slot between them, so this is for near ones.
pub fn by_chains(square: &Square, s: usize, t: usize) -> u64 {
    if s == t {
        return 0;
    }
    least((s + 1..=t).map(|next| square[s][next] + by_chains(square, next, t)))
}

/// The square made from a closed table: f(t-s) after the diagonal.
pub fn of_table(table: &[u64]) -> Square {
    let f = closure::by_recursion(table, LAST_SLOT);
    let mut square = [[0; SIDE]; SIDE];
    for (s, row) in square.iter_mut().enumerate() {
        row[s..].copy_from_slice(&f[..SIDE - s]);
    }
    square
}

/// The three lists, or the first refusal of 19, 3 and 4 along the rows, 6, 7, 23, 20, 11, 8.
/// `list_lengths` are the lengths of the lent lists for admitted, dropped and departed packets.
pub fn run(
    square: &Square,
    delay: u64,
    buffer: u64,
    arrivals: &[u64],
    list_lengths: [usize; 3],
) -> Result<Lists, Refusal> {
    refusal::square(square, delay, buffer, arrivals, list_lengths)?;
    let limits = Limits::from_numbers(delay, buffer)?;
    let closed = close(square);
    let mut totals = Totals::fresh();
    for &count in arrivals {
        advance(&closed, limits, &mut totals, count);
    }
    let rows: Vec<Row> = (1..=arrivals.len()).map(|slot| totals.row(slot)).collect();
    Ok(Lists::of_rows(&rows))
}

/// Theorem 5.1 for one more slot, F being closed.
fn advance(closed: &Square, limits: Limits, totals: &mut Totals, arrivals: u64) {
    let before = totals.slots_taken();
    let slot = before + 1;
    let x = &totals.admitted;
    let clipped = (0..slot).filter_map(|s| Some(x[s] + clip(closed, limits, s, slot)?));
    let admitted = least(clipped).min(x[before] + arrivals);
    totals.arrived.push(totals.arrived[before] + arrivals);
    totals.admitted.push(admitted);
    let x = &totals.admitted;
    let departed = least((0..=slot).map(|s| x[s] + closed[s][slot]));
    totals.departed.push(departed);
}

/// The clipper's envelope G(s,t), s below t: the smaller of F(s,t+d) and F(s,t-1) + q; a limit that is
/// none drops out.
fn clip(closed: &Square, limits: Limits, s: usize, t: usize) -> Option<u64> {
    let by_delay = limits.delay.map(|delay| closed[s][t + delay]);
    let by_buffer = limits.buffer.map(|buffer| closed[s][t - 1] + buffer);
    by_delay.into_iter().chain(by_buffer).min()
}
