//! Refusals that are given in another order, or where none is to be.

use super::Wrong;
use model::board::lines::Side;
use model::board::reach::{goes_nowhere, needs_a_select};
use model::board::{Answer, Call, CHANNELS};

pub const ALL: &[Wrong] = &[
    ("8 comes before 10", port_before_room),
    ("9 comes before 10", select_before_room),
    ("9 comes before 8", select_before_port),
    ("2 comes before 8", level_before_channel),
    ("5 comes before 9", command_before_select),
    ("a tick is refused with 9", tick_is_refused),
    ("the interrupts are refused with 9", interrupts_are_refused),
    ("a reset is refused with 9", reset_is_refused),
    ("a room of nine will do", nine_will_do),
    ("a room of seven will do for its channels", seven_will_do),
];

fn port_before_room(side: &mut Side, call: &Call) -> Answer {
    if goes_nowhere(call) {
        return call.refused(8);
    }
    side.call(call)
}

fn select_before_room(side: &mut Side, call: &Call) -> Answer {
    if needs_a_select(call) && !side.board.is_selected() {
        return call.refused(9);
    }
    side.call(call)
}

fn select_before_port(side: &mut Side, call: &Call) -> Answer {
    let asked = matches!(call, Call::In(_) | Call::Out(0..=6 | 8.., _));
    if asked && !side.board.is_selected() && side.count == CHANNELS {
        return call.refused(9);
    }
    side.call(call)
}

fn level_before_channel(side: &mut Side, call: &Call) -> Answer {
    match *call {
        Call::Receive(8.., 2..) if side.count == CHANNELS => call.refused(2),
        _ => side.call(call),
    }
}

fn command_before_select(side: &mut Side, call: &Call) -> Answer {
    match *call {
        Call::Out(3, 64..) if side.count == CHANNELS => call.refused(5),
        _ => side.call(call),
    }
}

fn tick_is_refused(side: &mut Side, call: &Call) -> Answer {
    match call {
        Call::Transmit(0..=7) if !side.board.is_selected() && side.count == CHANNELS => {
            call.refused(9)
        }
        _ => side.call(call),
    }
}

fn interrupts_are_refused(side: &mut Side, call: &Call) -> Answer {
    match call {
        Call::Interrupts if !side.board.is_selected() && side.count == CHANNELS => call.refused(9),
        _ => side.call(call),
    }
}

fn reset_is_refused(side: &mut Side, call: &Call) -> Answer {
    let unselected = !side.board.is_selected() && side.count == CHANNELS;
    if *call == Call::Reset && unselected {
        return call.refused(9);
    }
    side.call(call)
}

fn nine_will_do(side: &mut Side, call: &Call) -> Answer {
    let count = side.count;
    side.count = if count == 9 { CHANNELS } else { count };
    let answer = side.call(call);
    side.count = count;
    answer
}

fn seven_will_do(side: &mut Side, call: &Call) -> Answer {
    match call {
        Call::Transmit(0..=6) | Call::Receive(0..=6, _) if side.count == 7 => {
            side.count = CHANNELS;
            let answer = side.call(call);
            side.count = 7;
            answer
        }
        _ => side.call(call),
    }
}
