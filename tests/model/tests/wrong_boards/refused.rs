//! Refused calls that change something all the same, or answer a value.

use super::Wrong;
use model::board::lines::Side;
use model::board::reach::granted;
use model::board::{Answer, Board, Call, CHANNELS, NO_SUCH_PORT, WRONG_ROOM};
use model::calls::Lent;
use model::chip::Chip;

/// A board that does what calls ask for which it refuses.
macro_rules! does {
    ($call:pat, $refusal:pat) => {
        |side, call| {
            done_all_the_same(side, call, |call, refusal| {
                matches!((call, refusal), ($call, $refusal))
            })
        }
    };
}

/// A board that tells what calls ask for which it refuses.
macro_rules! tells {
    ($call:pat, $refusal:pat) => {
        |side, call| {
            told_all_the_same(side, call, |call, refusal| {
                matches!((call, refusal), ($call, $refusal))
            })
        }
    };
}

pub const ALL: &[Wrong] = &[
    // The board.
    (
        "a reset refused with 10 resets the board",
        reset_of_the_board,
    ),
    (
        "a select refused with 10 is taken",
        does!(Call::Out(7, _), 10),
    ),
    (
        "a mask refused with 10 is stored",
        does!(Call::Out(4 | 5, _), 10),
    ),
    (
        "a mask refused with 9 is stored",
        does!(Call::Out(4 | 5, _), 9),
    ),
    (
        "port 12 refused with 8 is port 4",
        does!(Call::Out(12, _), 8),
    ),
    (
        "port 255 refused with 8 is port 7",
        does!(Call::Out(255, _), 8),
    ),
    // A channel in range.
    (
        "a reset refused with 10 resets the channels",
        reset_of_the_channels,
    ),
    (
        "a read refused with 9 takes the character",
        does!(Call::In(0), 9),
    ),
    (
        "a read refused with 9 clears the change-mark",
        does!(Call::In(1), 9),
    ),
    (
        "a read refused with 9 moves the mode pointer",
        does!(Call::In(2), 9),
    ),
    (
        "a read refused with 9 resets the pointers",
        does!(Call::In(3), 9),
    ),
    (
        "a read refused with 10 takes the character",
        does!(Call::In(0), 10),
    ),
    (
        "a read refused with 10 moves the mode pointer",
        does!(Call::In(2), 10),
    ),
    (
        "a read refused with 8 is one of the low bits of its port",
        does!(Call::In(_), 8),
    ),
    (
        "a character refused with 9 is written",
        does!(Call::Out(0, _), 9),
    ),
    (
        "a character refused with 10 is written",
        does!(Call::Out(0, _), 10),
    ),
    (
        "a write refused with 8 is one of the low bits of its port",
        does!(Call::Out(..), 8),
    ),
    ("a mode refused with 9 is taken", does!(Call::Out(2, _), 9)),
    ("a mode refused with 3 is taken", does!(Call::Out(2, _), 3)),
    ("a mode refused with 4 is taken", does!(Call::Out(2, _), 4)),
    (
        "a command refused with 5 is taken",
        does!(Call::Out(3, _), 5),
    ),
    (
        "pins refused with 2 are taken by their low bits",
        does!(Call::Pins(..), 2),
    ),
    (
        "pins refused with 8 are those of the low bits of the channel",
        does!(Call::Pins(..), 8),
    ),
    ("pins refused with 10 are taken", does!(Call::Pins(..), 10)),
    (
        "a transmit tick refused with 8 is one of the low bits of the channel",
        does!(Call::Transmit(_), 8),
    ),
    (
        "a transmit tick refused with 10 is done",
        does!(Call::Transmit(_), 10),
    ),
    (
        "a receive tick refused with 2 is one of the low bit of the level",
        does!(Call::Receive(..), 2),
    ),
    (
        "a receive tick refused with 8 is one of the low bits of the channel",
        does!(Call::Receive(..), 8),
    ),
    (
        "a receive tick refused with 10 is done",
        does!(Call::Receive(..), 10),
    ),
    // The value.
    (
        "a read of port 7 refused with 8 gives the select",
        port_7_is_told,
    ),
    (
        "a read refused with 8 gives what the low bits of its port read",
        tells!(Call::In(_), 8),
    ),
    (
        "a read refused with 9 gives the character",
        tells!(Call::In(0), 9),
    ),
    (
        "a read refused with 9 gives the interrupts",
        tells!(Call::In(4 | 5), 9),
    ),
    (
        "a read refused with 10 gives the status",
        tells!(Call::In(1), 10),
    ),
    ("a refused write gives its byte", written_is_told),
    (
        "a transmit tick refused with 8 gives a level",
        tells!(Call::Transmit(_), 8),
    ),
    (
        "a transmit tick refused with 10 gives a level",
        tells!(Call::Transmit(_), 10),
    ),
    (
        "outputs refused with 8 are given",
        tells!(Call::Outputs(_), 8),
    ),
    (
        "outputs refused with 10 are given",
        tells!(Call::Outputs(_), 10),
    ),
    (
        "interrupts refused with 10 are given",
        tells!(Call::Interrupts, 10),
    ),
];

/// A refused call of which a fact holds changes what it would change if it were not
/// refused. A channel out of range stays, so that one in range has to show it.
fn done_all_the_same(side: &mut Side, call: &Call, fact: fn(&Call, u8) -> bool) -> Answer {
    let (granted, _) = granted(side, call);
    let answer = side.call(call);
    if fact(call, answer.0) {
        side.board = granted.board;
        for (lent, changed) in side.room.iter_mut().zip(granted.room) {
            if let Lent::InRange(_) = lent {
                *lent = changed;
            }
        }
    }
    answer
}

/// A refused call of which a fact holds answers the values that it would answer if it
/// were not refused.
fn told_all_the_same(side: &mut Side, call: &Call, fact: fn(&Call, u8) -> bool) -> Answer {
    let (_, values) = granted(side, call);
    let answer = side.call(call);
    if fact(call, answer.0) {
        return (answer.0, values);
    }
    answer
}

fn reset_of_the_board(side: &mut Side, call: &Call) -> Answer {
    let answer = side.call(call);
    if *call == Call::Reset && answer.0 == WRONG_ROOM {
        side.board = Board::numbered(side.board.number);
    }
    answer
}

fn reset_of_the_channels(side: &mut Side, call: &Call) -> Answer {
    let answer = side.call(call);
    if *call == Call::Reset && answer.0 == WRONG_ROOM {
        let channels = side.room[..CHANNELS].iter_mut();
        for lent in channels.filter(|lent| matches!(lent, Lent::InRange(_))) {
            *lent = Lent::InRange(Chip::just_reset());
        }
    }
    answer
}

fn port_7_is_told(side: &mut Side, call: &Call) -> Answer {
    let (refusal, values) = side.call(call);
    if *call == Call::In(7) && refusal == NO_SUCH_PORT {
        return (refusal, vec![side.board.select]);
    }
    (refusal, values)
}

fn written_is_told(side: &mut Side, call: &Call) -> Answer {
    let (refusal, values) = side.call(call);
    match *call {
        Call::Out(_, value) if refusal != 0 => (refusal, vec![value]),
        _ => (refusal, values),
    }
}
