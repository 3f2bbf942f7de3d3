//! Selects that are stored, kept or taken otherwise.

use super::{taken_for, then, Wrong};
use model::board::lines::Side;
use model::board::reach::needs_a_select;
use model::board::{Answer, Call, CHANNELS};

pub const ALL: &[Wrong] = &[
    (
        "a written select is not cut, 32 selects nobody",
        select_is_not_cut,
    ),
    ("a written select is stored whole", select_is_stored_whole),
    ("port 7 is refused with 9", port_7_is_refused),
    ("a board 4 is selected by 0", board_4_is_selected),
    ("a number above 3 counts by its low two bits", number_is_cut),
    ("bits 7-5 of a stored select count", stored_bits_count),
    ("a read of port 7 gives the select", port_7_is_read),
    ("bit 4 of a select does not count", bit_4_does_not_count),
    ("bit 2 of a select does not count", bit_2_does_not_count),
    (
        "a select is taken by the selected board alone",
        select_is_the_selected_boards,
    ),
    ("a call that is done cuts the stored select", done_cuts),
    ("a poll cuts the stored select", poll_cuts),
    ("a tick cuts the stored select", tick_cuts),
    ("a refused call cuts the stored select", refused_cuts),
];

fn select_is_not_cut(side: &mut Side, call: &Call) -> Answer {
    if side.board.select > 31 && needs_a_select(call) {
        let other = (side.board.number + 1) % 4 * 8;
        return taken_for(side, call, side.board.number, other);
    }
    select_is_stored_whole(side, call)
}

fn select_is_stored_whole(side: &mut Side, call: &Call) -> Answer {
    then(side, call, |side| {
        if let Call::Out(7, value) = *call {
            side.board.select = value;
        }
    })
}

fn port_7_is_refused(side: &mut Side, call: &Call) -> Answer {
    let wrong = matches!(call, Call::Out(7, _)) && side.count == CHANNELS;
    if wrong && !side.board.is_selected() {
        return call.refused(9);
    }
    side.call(call)
}

fn board_4_is_selected(side: &mut Side, call: &Call) -> Answer {
    let (number, select) = (side.board.number, side.board.select);
    let number = if number == 4 { 0 } else { number };
    taken_for(side, call, number, select)
}

fn number_is_cut(side: &mut Side, call: &Call) -> Answer {
    let (number, select) = (side.board.number, side.board.select);
    taken_for(side, call, number % 4, select)
}

fn stored_bits_count(side: &mut Side, call: &Call) -> Answer {
    if needs_a_select(call) && side.board.select > 31 && side.count == CHANNELS {
        return call.refused(9);
    }
    side.call(call)
}

fn port_7_is_read(side: &mut Side, call: &Call) -> Answer {
    match call {
        Call::In(7) if side.count == CHANNELS => (0, vec![side.board.select]),
        _ => side.call(call),
    }
}

fn bit_4_does_not_count(side: &mut Side, call: &Call) -> Answer {
    let (number, select) = (side.board.number, side.board.select);
    let number = if number < 4 { number % 2 } else { number };
    taken_for(side, call, number, select & 239)
}

fn bit_2_does_not_count(side: &mut Side, call: &Call) -> Answer {
    let (number, select) = (side.board.number, side.board.select);
    taken_for(side, call, number, select & 251)
}

fn select_is_the_selected_boards(side: &mut Side, call: &Call) -> Answer {
    let right = side.call(&Call::Interrupts).0;
    match call {
        Call::Out(7, _) if !side.board.is_selected() => call.refused(right),
        _ => side.call(call),
    }
}

/// What is stored is cut behind a call of which a fact holds.
fn cut_behind(side: &mut Side, call: &Call, fact: fn(&Call, u8) -> bool) -> Answer {
    let answer = side.call(call);
    if fact(call, answer.0) {
        side.board.select %= 32;
    }
    answer
}

fn done_cuts(side: &mut Side, call: &Call) -> Answer {
    cut_behind(side, call, |_, refusal| refusal == 0)
}

fn poll_cuts(side: &mut Side, call: &Call) -> Answer {
    cut_behind(side, call, |call, _| {
        matches!(call, Call::In(4 | 5) | Call::Interrupts)
    })
}

fn tick_cuts(side: &mut Side, call: &Call) -> Answer {
    cut_behind(side, call, |call, _| {
        matches!(call, Call::Transmit(_) | Call::Receive(..))
    })
}

fn refused_cuts(side: &mut Side, call: &Call) -> Answer {
    cut_behind(side, call, |_, refusal| refusal != 0)
}
