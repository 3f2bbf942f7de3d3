//! Refused calls: every refusal that stands for one, what it left that it would have
//! changed, and the values that it kept back.

use super::channel;
use crate::board::lines::Side;
use crate::board::{Call, CHANNELS, NOT_SELECTED, NO_SUCH_PORT, WRONG_ROOM};
use crate::calls::Lent;
use crate::chip::Chip;
use crate::counts::Counts;

/// What a refusal keeps: the board or a channel as it was, or a value back.
enum Kept {
    Board,
    Channel,
    Value,
}
use Kept::{Board, Channel, Value};

/// The calls, the refusals that there are of each, and what they keep.
const CALLS: [(&str, &[u8], &[Kept]); 21] = [
    ("a read of port 0", &[10, 9], &[Channel, Value]),
    ("a read of port 1", &[10, 9], &[Channel, Value]),
    ("a read of port 2", &[10, 9], &[Channel, Value]),
    ("a read of port 3", &[10, 9], &[Channel, Value]),
    ("a read of port 4", &[10, 9], &[Value]),
    ("a read of port 5", &[10, 9], &[Value]),
    ("a read of a port above 7", &[10, 8], &[Channel, Value]),
    ("a write of port 0", &[10, 9], &[Channel]),
    ("a write of port 1", &[10, 9], &[Channel]),
    ("a write of port 2", &[10, 9, 3, 4], &[Channel]),
    ("a write of port 3", &[10, 9, 5], &[Channel]),
    ("a write of port 4", &[10, 9], &[Board]),
    ("a write of port 5", &[10, 9], &[Board]),
    ("a write of port 7", &[10], &[Board]),
    ("a write of a port above 7", &[10, 8], &[Board, Channel]),
    ("a reset", &[10], &[Board, Channel]),
    ("a call of pins", &[10, 8, 2], &[Channel]),
    ("a transmit tick", &[10, 8], &[Channel, Value]),
    ("a receive tick", &[10, 8, 2], &[Channel]),
    ("a look at outputs", &[10, 8], &[Value]),
    ("a look at interrupts", &[10], &[Value]),
];

const BOARD: &str = "board";
const IN_RANGE: &str = "channel in range";
const OUT_OF_RANGE: &str = "channel out of range";
/// Which is out of range too.
const WRONG_STATUS: &str = "channel whose status byte alone is wrong";

fn asked(call: &Call) -> String {
    match *call {
        Call::In(port @ 0..=7) => format!("a read of port {port}"),
        Call::Out(port @ 0..=7, _) => format!("a write of port {port}"),
        Call::In(_) => "a read of a port above 7".to_string(),
        Call::Out(..) => "a write of a port above 7".to_string(),
        Call::Reset => "a reset".to_string(),
        Call::Pins(..) => "a call of pins".to_string(),
        Call::Transmit(_) => "a transmit tick".to_string(),
        Call::Receive(..) => "a receive tick".to_string(),
        Call::Outputs(_) => "a look at outputs".to_string(),
        Call::Interrupts => "a look at interrupts".to_string(),
    }
}

fn left(what: &str, call: &str, refusal: u8) -> String {
    format!("{what} that {call} would have changed, shown after refusal {refusal}")
}

fn kept_back(call: &str, refusal: u8) -> String {
    format!("{call} that would have given another value than 0, refused with {refusal}")
}

pub fn name(counts: &mut Counts) {
    for (call, refusals, all) in CALLS {
        for kept in all {
            match kept {
                Board => name_left(counts, BOARD, call, refusals),
                Channel => {
                    name_left(counts, IN_RANGE, call, refusals);
                    name_left(counts, OUT_OF_RANGE, call, refusals);
                    name_left(counts, WRONG_STATUS, call, refusals);
                }
                Value => {
                    counts.name(refusals.iter().map(|number| kept_back(call, *number)));
                }
            }
        }
    }
}

fn name_left(counts: &mut Counts, what: &str, call: &str, refusals: &[u8]) {
    counts.name(refusals.iter().map(|number| left(what, call, *number)));
}

/// A refused call, whose values are 0.
pub fn called(counts: &mut Counts, before: &Side, call: &Call, refusal: u8) {
    let (_, values) = granted(before, call);
    let value = values.iter().any(|&value| value != 0);
    counts.count_if(value, &kept_back(&asked(call), refusal));
}

/// The board is shown behind a refused call.
pub fn board_shown(counts: &mut Counts, before: &Side, call: &Call, refusal: u8) {
    let changed = granted(before, call).0.board != before.board;
    counts.count_if(changed, &left(BOARD, &asked(call), refusal));
}

/// A device of the room is shown behind a refused call.
pub fn device_shown(counts: &mut Counts, before: &Side, place: usize, call: &Call, refusal: u8) {
    let what = match before.room[place] {
        Lent::InRange(_) => IN_RANGE,
        Lent::OutOfRange(_) => OUT_OF_RANGE,
    };
    let changed = granted(before, call).0.room[place] != before.room[place];
    counts.count_if(changed, &left(what, &asked(call), refusal));
    let wrong_status = before.room[place].wrong_status() != 0;
    counts.count_if(
        changed && wrong_status,
        &left(WRONG_STATUS, &asked(call), refusal),
    );
}

/// What a call would leave, and the values that it would answer, if it were not
/// refused: with a room of eight, on the board that is selected, and with what it is
/// given cut to numbers that are taken.
pub fn granted(side: &Side, call: &Call) -> (Side, Vec<u8>) {
    let mut after = side.clone();
    after.count = CHANNELS;
    after.board.number = side.board.select / 8 % 4;
    let (_, values) = after.call(&cut(call));
    after.count = side.count;
    after.board.number = side.board.number;
    (after, values)
}

fn cut(call: &Call) -> Call {
    match *call {
        Call::In(port) => Call::In(port % 8),
        Call::Out(port, value) => match port % 8 {
            // A mode with a factor and a stop length, a command without bits 7-6.
            2 => Call::Out(2, value | 65),
            3 => Call::Out(3, value % 64),
            port => Call::Out(port, value),
        },
        Call::Pins(channel, levels) => Call::Pins(channel % 8, levels.map(|level| level % 2)),
        Call::Transmit(channel) => Call::Transmit(channel % 8),
        Call::Receive(channel, level) => Call::Receive(channel % 8, level % 2),
        Call::Outputs(channel) => Call::Outputs(channel % 8),
        Call::Reset | Call::Interrupts => *call,
    }
}

/// Whether a call has a port or a channel that is none.
pub fn goes_nowhere(call: &Call) -> bool {
    match *call {
        Call::In(port) => port > 5,
        Call::Out(port, _) => port == 6 || port > 7,
        Call::Pins(channel, _) | Call::Receive(channel, _) => channel > 7,
        Call::Transmit(channel) | Call::Outputs(channel) => channel > 7,
        Call::Reset | Call::Interrupts => false,
    }
}

/// Whether a call is only taken by a board that is selected.
pub fn needs_a_select(call: &Call) -> bool {
    matches!(call, Call::In(0..=5) | Call::Out(0..=5, _))
}

/// Every refusal that stands for a call, whether or not another comes before it.
pub fn refusals(side: &Side, call: &Call) -> Vec<u8> {
    let mut all = Vec::new();
    if side.count != CHANNELS {
        all.push(WRONG_ROOM);
    }
    if goes_nowhere(call) {
        all.push(NO_SUCH_PORT);
    }
    if needs_a_select(call) && !side.board.is_selected() {
        all.push(NOT_SELECTED);
    }
    let mut chip = Chip::just_reset();
    if let Some(Lent::InRange(named)) = channel(&side.board, call).and_then(|k| side.room.get(k)) {
        chip = named.clone();
    }
    let own = match *call {
        Call::Out(port @ 0..=3, value) => chip.write(port, value),
        Call::Pins(_, [dsr, dcd, cts]) => chip.set_pins(dsr, dcd, cts),
        Call::Receive(_, level) => chip.receive(level),
        _ => 0,
    };
    if own != 0 {
        all.push(own);
    }
    all
}
