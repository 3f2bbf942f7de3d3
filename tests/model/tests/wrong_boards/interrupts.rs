//! Interrupts and masks that are shown, told or stored otherwise.

use super::{taken_for, then, Wrong};
use model::board::lines::Side;
use model::board::reach::own_bits;
use model::board::{pending, Answer, Board, Call, CHANNELS};
use model::calls::Lent;

pub const ALL: &[Wrong] = &[
    ("port 4 shows what is enabled", status_4_is_masked),
    ("port 5 shows what is enabled", status_5_is_masked),
    ("port 5 shows port 4", port_5_is_port_4),
    ("a 1 in a mask inhibits", a_1_inhibits),
    ("the interrupts are swapped", interrupts_are_swapped),
    (
        "a channel out of range is polled by its own bits",
        polled_by_own_bits,
    ),
    (
        "interrupts are those of its own bits",
        interrupts_by_own_bits,
    ),
    ("channel 6 has a jumper to port 4", jumper_to_port::<4, 6>),
    ("channel 7 has a jumper to port 4", jumper_to_port::<4, 7>),
    ("channel 6 has a jumper to port 5", jumper_to_port::<5, 6>),
    ("channel 7 has a jumper to port 5", jumper_to_port::<5, 7>),
    (
        "channel 6 has a jumper to its transmit line",
        jumper_to_line::<4, 6>,
    ),
    (
        "channel 7 has a jumper to its transmit line",
        jumper_to_line::<4, 7>,
    ),
    (
        "channel 6 has a jumper to its receive line",
        jumper_to_line::<5, 6>,
    ),
    (
        "channel 7 has a jumper to its receive line",
        jumper_to_line::<5, 7>,
    ),
    ("channel 0 is not in port 4", not_in_port::<4, 0>),
    ("channel 7 is not in port 4", not_in_port::<4, 7>),
    ("channel 0 is not in port 5", not_in_port::<5, 0>),
    ("channel 7 is not in port 5", not_in_port::<5, 7>),
    ("channel 0 has no transmit line", no_line::<4, 0>),
    ("channel 7 has no transmit line", no_line::<4, 7>),
    ("channel 0 has no receive line", no_line::<5, 0>),
    ("channel 7 has no receive line", no_line::<5, 7>),
    ("the masks are swapped", masks_are_swapped),
    (
        "a mask is written while another board is selected",
        mask_of_another,
    ),
    ("a poll is a read of every status", poll_reads),
];

/// The status bit that a port shows.
fn bit(port: u8) -> u8 {
    if port == 4 {
        1
    } else {
        2
    }
}

/// The right byte of a port.
fn shown(side: &Side, port: u8) -> u8 {
    pending(side.channels(), bit(port))
}

/// A read of a port that is done answers another byte.
fn read_as(side: &mut Side, call: &Call, port: u8, byte: impl Fn(&Side) -> u8) -> Answer {
    let (refusal, values) = side.call(call);
    if *call == Call::In(port) && refusal == 0 {
        return (refusal, vec![byte(side)]);
    }
    (refusal, values)
}

/// The lines are those of other bytes than what ports 4 and 5 show.
fn lines_as(side: &mut Side, call: &Call, byte: impl Fn(&Side, u8) -> u8) -> Answer {
    let (refusal, values) = side.call(call);
    if *call == Call::Interrupts && refusal == 0 {
        let receive = byte(side, 5) & side.board.receive_mask;
        return (0, vec![receive, byte(side, 4) & side.board.transmit_mask]);
    }
    (refusal, values)
}

fn status_4_is_masked(side: &mut Side, call: &Call) -> Answer {
    read_as(side, call, 4, |side| {
        shown(side, 4) & side.board.transmit_mask
    })
}

fn status_5_is_masked(side: &mut Side, call: &Call) -> Answer {
    read_as(side, call, 5, |side| {
        shown(side, 5) & side.board.receive_mask
    })
}

fn port_5_is_port_4(side: &mut Side, call: &Call) -> Answer {
    read_as(side, call, 5, |side| shown(side, 4))
}

fn a_1_inhibits(side: &mut Side, call: &Call) -> Answer {
    let turn = |board: &mut Board| {
        board.transmit_mask = !board.transmit_mask;
        board.receive_mask = !board.receive_mask;
    };
    if *call != Call::Interrupts {
        return side.call(call);
    }
    turn(&mut side.board);
    let answer = side.call(call);
    turn(&mut side.board);
    answer
}

fn interrupts_are_swapped(side: &mut Side, call: &Call) -> Answer {
    let (refusal, mut values) = side.call(call);
    if *call == Call::Interrupts {
        values.reverse();
    }
    (refusal, values)
}

fn with_own_bits(side: &Side, port: u8) -> u8 {
    shown(side, port) | own_bits(side.channels(), bit(port))
}

fn polled_by_own_bits(side: &mut Side, call: &Call) -> Answer {
    let port = if *call == Call::In(4) { 4 } else { 5 };
    read_as(side, call, port, |side| with_own_bits(side, port))
}

fn interrupts_by_own_bits(side: &mut Side, call: &Call) -> Answer {
    lines_as(side, call, with_own_bits)
}

// Single channels, those of port 4 or those of port 5.

/// With status bit 2 of a channel, which its jumper would add.
fn jumpered(side: &Side, port: u8, channel: u8) -> u8 {
    shown(side, port) | pending(side.channels(), 4) & 1 << channel
}

fn jumper_to_port<const PORT: u8, const CHANNEL: u8>(side: &mut Side, call: &Call) -> Answer {
    read_as(side, call, PORT, |side| jumpered(side, PORT, CHANNEL))
}

fn jumper_to_line<const PORT: u8, const CHANNEL: u8>(side: &mut Side, call: &Call) -> Answer {
    lines_as(side, call, |side, port| match port {
        _ if port == PORT => jumpered(side, port, CHANNEL),
        _ => shown(side, port),
    })
}

fn not_in_port<const PORT: u8, const CHANNEL: u8>(side: &mut Side, call: &Call) -> Answer {
    read_as(side, call, PORT, |side| shown(side, PORT) & !(1 << CHANNEL))
}

fn no_line<const PORT: u8, const CHANNEL: u8>(side: &mut Side, call: &Call) -> Answer {
    lines_as(side, call, |side, port| match port {
        _ if port == PORT => shown(side, port) & !(1 << CHANNEL),
        _ => shown(side, port),
    })
}

// Masks, and what a poll leaves.

fn masks_are_swapped(side: &mut Side, call: &Call) -> Answer {
    match *call {
        Call::Out(4, value) => side.call(&Call::Out(5, value)),
        Call::Out(5, value) => side.call(&Call::Out(4, value)),
        _ => side.call(call),
    }
}

fn mask_of_another(side: &mut Side, call: &Call) -> Answer {
    match call {
        Call::Out(4 | 5, _) if side.board.number < 4 => {
            let (number, select) = (side.board.number, side.board.select);
            taken_for(side, call, number, 8 * number + select % 8)
        }
        _ => side.call(call),
    }
}

fn poll_reads(side: &mut Side, call: &Call) -> Answer {
    then(side, call, |side| {
        if let Call::In(4) = call {
            for lent in &mut side.room[..CHANNELS] {
                if let Lent::InRange(chip) = lent {
                    chip.read(1);
                }
            }
        }
    })
}
