//! Document 02, 2.10: under demand 3's premises a square's loss curve is lowest for pairs that keep F
//! itself.

use reference::permitted::{Pair, totals};
use tests_program::cases::{said, wide};
use tests_program::dice::Dice;
use tests_program::square::{Drawn, square};

use crate::lowest::{check_drawn, check_greatest, tiny};
use crate::varying::run_drawn;

const RUNS: usize = 40_000;

fn draw(dice: &mut Dice) -> Drawn {
    let ((delay, buffer), arrivals) = tiny(dice);
    let scale = dice.pick([1, 1, 2]);
    Drawn {
        square: square(dice, scale),
        delay,
        buffer,
        arrivals,
    }
}

fn check(drawn: &Drawn) -> Result<bool, String> {
    let run = run_drawn(drawn);
    said(run.outcome)?;
    let [admitted, _, departed] = run.lists;
    let pair = Pair {
        admitted: totals(&wide(&admitted)),
        departed: totals(&wide(&departed)),
    };
    let limits = (drawn.delay, drawn.buffer);
    check_greatest(&drawn.wide_square(), limits, &drawn.arrivals, pair)
}

#[test]
fn nothing_permitted_loses_less() {
    check_drawn(RUNS, draw, check);
}
