//! Resets that leave something, or reset too much.

use super::{then, Wrong};
use model::board::lines::Side;
use model::board::{Answer, Call, CHANNELS};
use model::calls::Lent;
use model::chip::Chip;

pub const ALL: &[Wrong] = &[
    ("a reset leaves the transmit mask", reset_leaves_a_mask),
    ("a reset leaves the select", reset_leaves_the_select),
    ("a reset leaves channel 7", reset_leaves_channel_7),
    ("a reset leaves what is out of range", reset_leaves_garbage),
    ("a reset makes the number 0", reset_clears_the_number),
    (
        "a reset resets what is behind the room",
        reset_resets_the_ninth,
    ),
];

fn reset_leaves_a_mask(side: &mut Side, call: &Call) -> Answer {
    let mask = side.board.transmit_mask;
    then(side, call, |side| {
        if *call == Call::Reset {
            side.board.transmit_mask = mask;
        }
    })
}

fn reset_leaves_the_select(side: &mut Side, call: &Call) -> Answer {
    let select = side.board.select;
    then(side, call, |side| {
        if *call == Call::Reset {
            side.board.select = select;
        }
    })
}

fn reset_leaves_channel_7(side: &mut Side, call: &Call) -> Answer {
    let last = side.room[7].clone();
    then(side, call, |side| {
        if *call == Call::Reset {
            side.room[7] = last.clone();
        }
    })
}

fn reset_leaves_garbage(side: &mut Side, call: &Call) -> Answer {
    let room = side.room.clone();
    then(side, call, |side| {
        for (lent, before) in side.room.iter_mut().zip(&room) {
            if *call == Call::Reset && matches!(before, Lent::OutOfRange(_)) {
                *lent = before.clone();
            }
        }
    })
}

fn reset_clears_the_number(side: &mut Side, call: &Call) -> Answer {
    then(side, call, |side| {
        if *call == Call::Reset {
            side.board.number = 0;
        }
    })
}

fn reset_resets_the_ninth(side: &mut Side, call: &Call) -> Answer {
    then(side, call, |side| {
        if *call == Call::Reset {
            side.room[CHANNELS] = Lent::InRange(Chip::just_reset());
        }
    })
}
