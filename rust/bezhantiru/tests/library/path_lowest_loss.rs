//! Document 02, 2.5: under demand 3's premises a path's loss curve is lowest among pairs whose
//! departures keep every stage's envelope.

use reference::path::least_envelope;
use reference::permitted::{Pair, totals};
use tests_program::cases::{said, wide};
use tests_program::dice::Dice;
use tests_program::path::Drawn;

use crate::lent::lend;
use crate::lowest::{check_drawn, check_greatest, tiny};

const PATHS: usize = 40_000;

fn tiny_table(dice: &mut Dice) -> Vec<u32> {
    let mut table = vec![0];
    for _ in 0..dice.between(1, 3) {
        table.push(table[table.len() - 1] + dice.below(3));
    }
    table
}

fn draw(dice: &mut Dice) -> Drawn {
    let stages = dice.between(1, 4);
    let ((delay, buffer), arrivals) = tiny(dice);
    Drawn {
        tables: (0..stages).map(|_| tiny_table(dice)).collect(),
        delay,
        buffer,
        arrivals,
    }
}

/// Admitted at the entrance, departed from the last stage.
fn pair(drawn: &Drawn) -> Result<Pair, String> {
    let (delay, buffer) = (drawn.delay, drawn.buffer);
    let run = lend(drawn.list_lengths(), |lists| {
        bezhantiru::path::run(&drawn.tables, delay, buffer, &drawn.arrivals, lists)
    });
    said(run.outcome)?;
    let [admitted, _, departed] = run.lists;
    let last = &departed[departed.len() - admitted.len()..];
    Ok(Pair {
        admitted: totals(&wide(&admitted)),
        departed: totals(&wide(last)),
    })
}

fn check(drawn: &Drawn) -> Result<bool, String> {
    let f = least_envelope(&drawn.wide_tables(), drawn.arrivals.len());
    let limits = (drawn.delay, drawn.buffer);
    check_greatest(&f, limits, &drawn.arrivals, pair(drawn)?)
}

#[test]
fn nothing_permitted_loses_less() {
    check_drawn(PATHS, draw, check);
}
