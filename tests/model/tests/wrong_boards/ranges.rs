//! Channels out of range that are settled, or not.

use super::{settle, then, Wrong};
use model::board::lines::Side;
use model::board::{Answer, Call, CHANNELS};
use model::calls::Lent;

pub const ALL: &[Wrong] = &[
    ("a refused write settles its channel", refused_write_settles),
    (
        "a call refused with 9 settles its channel",
        unselected_settles,
    ),
    ("a wrong room is settled", wrong_room_settles),
    ("a poll settles the room", poll_settles),
    ("outputs settle a channel", outputs_settle),
    (
        "a call that is done settles the whole room",
        done_settles_all,
    ),
    (
        "pins refused with 2 settle their channel",
        refused_pins_settle,
    ),
    (
        "a status read leaves a channel out of range",
        status_read_leaves,
    ),
];

fn settled(side: &mut Side, call: &Call, when: fn(&Call, u8) -> bool) -> Answer {
    let answer = side.call(call);
    if when(call, answer.0) {
        let selected = usize::from(side.board.selected());
        settle(&mut side.room[selected]);
    }
    answer
}

fn refused_write_settles(side: &mut Side, call: &Call) -> Answer {
    settled(side, call, |_, refusal| (3..=5).contains(&refusal))
}

fn unselected_settles(side: &mut Side, call: &Call) -> Answer {
    settled(side, call, |_, refusal| refusal == 9)
}

fn wrong_room_settles(side: &mut Side, call: &Call) -> Answer {
    settled(side, call, |_, refusal| refusal == 10)
}

fn poll_settles(side: &mut Side, call: &Call) -> Answer {
    settled(side, call, |call, refusal| {
        matches!(call, Call::In(4 | 5)) && refusal == 0
    })
}

fn outputs_settle(side: &mut Side, call: &Call) -> Answer {
    then(side, call, |side| {
        if let Call::Outputs(channel) = *call {
            settle(&mut side.room[usize::from(channel)]);
        }
    })
}

fn done_settles_all(side: &mut Side, call: &Call) -> Answer {
    then(side, call, |side| {
        if let Call::Transmit(_) = call {
            side.room[..CHANNELS].iter_mut().for_each(settle);
        }
    })
}

fn refused_pins_settle(side: &mut Side, call: &Call) -> Answer {
    let answer = side.call(call);
    if let (Call::Pins(channel, _), 2) = (call, answer.0) {
        settle(&mut side.room[usize::from(*channel)]);
    }
    answer
}

fn status_read_leaves(side: &mut Side, call: &Call) -> Answer {
    let selected = usize::from(side.board.selected());
    let before = side.room[selected].clone();
    then(side, call, |side| {
        if *call == Call::In(1) && matches!(before, Lent::OutOfRange(_)) {
            side.room[selected] = before.clone();
        }
    })
}
