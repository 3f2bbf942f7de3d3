//! Wrong boards: what each does with a call. `all` names them.

mod answers;
mod interrupts;
mod neighbours;
mod order;
mod ranges;
mod refused;
mod resets;
mod selects;

use model::board::lines::{Make, Side};
use model::board::{Answer, Call};
use model::calls::Lent;

pub type Wrong = (&'static str, Make);

pub fn all() -> Vec<Wrong> {
    [
        neighbours::ALL,
        interrupts::ALL,
        selects::ALL,
        order::ALL,
        refused::ALL,
        answers::ALL,
        resets::ALL,
        ranges::ALL,
    ]
    .concat()
}

fn settle(lent: &mut Lent) {
    lent.settled();
}

/// The right answer, with something done behind a call that is done.
fn then(side: &mut Side, call: &Call, further: impl Fn(&mut Side)) -> Answer {
    let answer = side.call(call);
    if answer.0 == 0 {
        further(side);
    }
    answer
}

/// The answer on a board that is taken for another while it is called.
fn taken_for(side: &mut Side, call: &Call, number: u8, select: u8) -> Answer {
    let before = side.board;
    (side.board.number, side.board.select) = (number, select);
    let answer = side.call(call);
    side.board.number = before.number;
    let stored = answer.0 == 0 && matches!(call, Call::Out(7, _) | Call::Reset);
    if !stored {
        side.board.select = before.select;
    }
    answer
}
