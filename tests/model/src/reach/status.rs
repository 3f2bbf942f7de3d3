//! The status byte that a device keeps (P7 of the change requests): the calls that move its
//! bits, and devices in which it alone is wrong. All is counted where the device is shown
//! behind the call.

use crate::calls::{Call, Lent};
use crate::counts::Counts;

/// A chip's call, the bits of the status that it may set, and those that it may clear. No
/// other call moves any: a count that has no name ends the program.
const MOVES: [(&str, u8, u8); 9] = [
    ("a reset", 0, 255),
    ("a read of address 0", 0, 2),
    ("a read of address 1", 0, 4),
    ("a write of address 0", 0, 5),
    ("a write of address 3", 1, 63),
    ("a call of pins", 196, 192),
    ("a transmit tick", 5, 0),
    ("a receive tick", 58, 0),
    (OF_BOTH, 63, 0),
];
/// A board has no such call.
const OF_BOTH: &str = "a tick of both";

/// The chip's calls that may be refused.
const MAY_BE_REFUSED: [&str; 5] = ["read", "write", "pins", "receive", "tick"];

const WRONG_IN_ONE_BIT: &str = "status byte alone wrong in one bit, by bit";
const WRONG_IN_SEVERAL: &str = "status byte alone wrong in several bits";

fn asked(call: &Call) -> String {
    match *call {
        Call::Reset => "a reset".to_string(),
        Call::Read(address) => format!("a read of address {address}"),
        Call::Write(address, _) => format!("a write of address {address}"),
        Call::Pins(_) => "a call of pins".to_string(),
        Call::Transmit => "a transmit tick".to_string(),
        Call::Receive(_) => "a receive tick".to_string(),
        Call::Tick(_) => OF_BOTH.to_string(),
        _ => format!("a look by {}", call.name()),
    }
}

fn set_by(bit: u8, call: &str) -> String {
    format!("status bit {bit} set by {call}, shown")
}

fn cleared_by(bit: u8, call: &str) -> String {
    format!("status bit {bit} cleared by {call}, shown")
}

fn on_lent(call: &str, refused: bool, how: &str) -> String {
    let done = if refused { "refused" } else { "done" };
    format!("{call} {done} on a device {how}, shown")
}

const ALONE_WRONG: &str = "whose status byte alone is wrong";
const RIGHT: &str = "that was lent in range";

fn name_moves<'a>(counts: &mut Counts, moves: impl Iterator<Item = &'a (&'a str, u8, u8)>) {
    for (call, sets, clears) in moves {
        let bits = |byte: &u8| {
            let byte = *byte;
            (0..8).filter(move |bit| byte >> bit & 1 == 1)
        };
        counts.name(bits(sets).map(|bit| set_by(bit, call)));
        counts.name(bits(clears).map(|bit| cleared_by(bit, call)));
    }
}

/// What is counted of the calls of one device.
pub fn name_of_calls(counts: &mut Counts) {
    name_moves(counts, MOVES.iter());
    name_bits(counts);
    for how in [ALONE_WRONG, RIGHT] {
        counts.name(Call::NAMES.map(|call| on_lent(call, false, how)));
        counts.name(MAY_BE_REFUSED.map(|call| on_lent(call, true, how)));
    }
}

/// What is counted of the channels of a board.
pub fn name_of_channels(counts: &mut Counts) {
    name_moves(counts, MOVES.iter().filter(|(call, ..)| *call != OF_BOTH));
    name_bits(counts);
}

/// Which bits of a status byte are wrong.
pub fn name_bits(counts: &mut Counts) {
    counts.name_places(8, [WRONG_IN_ONE_BIT]);
    counts.name([WRONG_IN_SEVERAL]);
}

/// The bits that are wrong, some at the least.
pub fn count_bits(counts: &mut Counts, wrong: u8) {
    match wrong.count_ones() {
        1 => counts.count_places(WRONG_IN_ONE_BIT, wrong),
        _ => counts.count(WRONG_IN_SEVERAL),
    }
}

/// The status before a chip's call, and behind it.
pub fn count_moves(counts: &mut Counts, call: &Call, [before, after]: [u8; 2]) {
    for bit in 0..8 {
        match (before >> bit & 1, after >> bit & 1) {
            (0, 1) => counts.count(&set_by(bit, &asked(call))),
            (1, 0) => counts.count(&cleared_by(bit, &asked(call))),
            _ => {}
        }
    }
}

/// The first call on a device that was lent by its bytes.
pub fn called_first(counts: &mut Counts, call: &Call, refused: bool, lent: &Lent) {
    let wrong = lent.wrong_status();
    if wrong != 0 {
        counts.count(&on_lent(call.name(), refused, ALONE_WRONG));
        count_bits(counts, wrong);
    } else if let Lent::InRange(_) = lent {
        counts.count(&on_lent(call.name(), refused, RIGHT));
    }
}
