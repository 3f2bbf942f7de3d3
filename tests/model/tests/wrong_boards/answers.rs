//! Calls that have nothing to tell, and answer something.

use super::Wrong;
use model::board::lines::Side;
use model::board::{Answer, Call};

pub const ALL: &[Wrong] = &[
    ("a write answers its byte", write_tells),
    ("a select answers what it stores", select_tells),
    ("a reset answers the number", reset_tells),
    ("pins answer DSR", pins_tell),
    ("a receive tick answers its level", receive_tells),
];

/// A call that is done answers a value, if there is one.
fn told(side: &mut Side, call: &Call, value: fn(&Side, &Call) -> Option<u8>) -> Answer {
    let (refusal, values) = side.call(call);
    match value(side, call) {
        Some(value) if refusal == 0 => (0, vec![value]),
        _ => (refusal, values),
    }
}

fn write_tells(side: &mut Side, call: &Call) -> Answer {
    told(side, call, |_, call| match *call {
        Call::Out(0..=5, value) => Some(value),
        _ => None,
    })
}

fn select_tells(side: &mut Side, call: &Call) -> Answer {
    told(side, call, |side, call| match call {
        Call::Out(7, _) => Some(side.board.select),
        _ => None,
    })
}

fn reset_tells(side: &mut Side, call: &Call) -> Answer {
    told(side, call, |side, call| match call {
        Call::Reset => Some(side.board.number),
        _ => None,
    })
}

fn pins_tell(side: &mut Side, call: &Call) -> Answer {
    told(side, call, |_, call| match *call {
        Call::Pins(_, [dsr, ..]) => Some(dsr),
        _ => None,
    })
}

fn receive_tells(side: &mut Side, call: &Call) -> Answer {
    told(side, call, |_, call| match *call {
        Call::Receive(_, level) => Some(level),
        _ => None,
    })
}
