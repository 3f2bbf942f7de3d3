//! Calls that go to other channels than their own.

use super::{settle, then, Wrong};
use model::board::lines::Side;
use model::board::{Answer, Call, CHANNELS};
use model::calls::Call as ChipCall;

pub const ALL: &[Wrong] = &[
    ("a transmit tick ticks the next channel too", next_transmits),
    (
        "a receive tick ticks the channel before too",
        previous_receives,
    ),
    (
        "a write of a port is one of the next channel too",
        next_is_written,
    ),
    ("pins settle the channel behind the room", ninth_is_settled),
    (
        "pins are those of the selected channel",
        pins_of_the_selected,
    ),
    ("channel 8 is channel 0", channel_8_is_0),
];

fn next_transmits(side: &mut Side, call: &Call) -> Answer {
    then(side, call, |side| {
        if let Call::Transmit(channel) = *call {
            side.room[usize::from(channel + 1)].call(&ChipCall::Transmit);
        }
    })
}

fn previous_receives(side: &mut Side, call: &Call) -> Answer {
    then(side, call, |side| {
        if let Call::Receive(channel @ 1.., level) = *call {
            side.room[usize::from(channel - 1)].call(&ChipCall::Receive(level));
        }
    })
}

fn next_is_written(side: &mut Side, call: &Call) -> Answer {
    then(side, call, |side| {
        if let Call::Out(port @ 0..=3, value) = *call {
            let next = usize::from(side.board.selected()) + 1;
            side.room[next % CHANNELS].call(&ChipCall::Write(port, value));
        }
    })
}

fn ninth_is_settled(side: &mut Side, call: &Call) -> Answer {
    then(side, call, |side| {
        if let Call::Pins(..) = call {
            settle(&mut side.room[CHANNELS]);
        }
    })
}

fn pins_of_the_selected(side: &mut Side, call: &Call) -> Answer {
    match *call {
        Call::Pins(0..=7, levels) => side.call(&Call::Pins(side.board.selected(), levels)),
        _ => side.call(call),
    }
}

fn channel_8_is_0(side: &mut Side, call: &Call) -> Answer {
    match call {
        Call::Transmit(8) => side.call(&Call::Transmit(0)),
        _ => side.call(call),
    }
}
