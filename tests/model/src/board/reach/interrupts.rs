//! The interrupts that were seen, channel by channel.

use crate::board::lines::Side;
use crate::board::{channels_that, pending, CHANNELS, RECEIVE_READY, TRANSMIT_READY};
use crate::calls::{Lent, DEVICE_BYTES};
use crate::counts::Counts;
use crate::ranges::{meant_status, STATUS};

/// The status bit that the jumpers of channels 6 and 7 would make an interrupt.
const EMPTY_OR_CHANGED: u8 = 4;

struct Kind {
    name: &'static str,
    port: u8,
    bit: u8,
    mask: fn(&Side) -> u8,
}

const KINDS: [Kind; 2] = [
    Kind {
        name: "transmit",
        port: 4,
        bit: TRANSMIT_READY,
        mask: |side| side.board.transmit_mask,
    },
    Kind {
        name: "receive",
        port: 5,
        bit: RECEIVE_READY,
        mask: |side| side.board.receive_mask,
    },
];

/// What is counted of each channel in the byte of a port.
const IN_A_PORT: [&str; 7] = [
    "a 1",
    "a 0 beside a 1",
    "a masked 1",
    "a 0 at status bit 2",
    "a 0 for bytes out of range that have the bit",
    "a 0 for a status byte alone wrong that has the bit",
    "a 0 for fields that have the bit under a status byte alone wrong",
];

/// What is counted of each channel in the byte of its lines.
const ON_LINES: [&str; 8] = [
    "asserted",
    "not asserted beside one that is",
    "pending and masked",
    "enabled and not pending",
    "enabled and not pending at status bit 2",
    "enabled and not pending for bytes out of range that have the bit",
    "enabled and not pending for a status byte alone wrong that has the bit",
    "enabled and not pending for fields that have the bit under a status byte alone wrong",
];

fn in_a_port(kind: &Kind, what: &str) -> String {
    format!("port {} read with {what}, by channel", kind.port)
}

fn on_lines(kind: &Kind, what: &str) -> String {
    format!("{} line {what}, by channel", kind.name)
}

pub fn name(counts: &mut Counts) {
    for kind in &KINDS {
        counts.name_places(CHANNELS, IN_A_PORT.map(|what| in_a_port(kind, what)));
        counts.name_places(CHANNELS, ON_LINES.map(|what| on_lines(kind, what)));
    }
}

/// A read of port 4 or 5 that is done.
pub fn polled(counts: &mut Counts, side: &Side, port: u8) {
    for kind in KINDS.iter().filter(|kind| kind.port == port) {
        let pending = pending(side.channels(), kind.bit);
        let facts = [
            pending,
            zeros_beside_ones(pending),
            pending & !(kind.mask)(side),
            empty_or_changed(side) & !pending,
            own_bits(side.channels(), kind.bit),
            wrong_statuses(side.channels(), |bytes| bytes[STATUS] & kind.bit != 0),
            wrong_statuses(side.channels(), |bytes| meant_status(bytes) & kind.bit != 0),
        ];
        for (what, channels) in IN_A_PORT.iter().zip(facts) {
            counts.count_places(&in_a_port(kind, what), channels);
        }
    }
}

/// A look at the interrupt lines that is done.
pub fn looked_at(counts: &mut Counts, side: &Side) {
    for kind in &KINDS {
        let pending = pending(side.channels(), kind.bit);
        let mask = (kind.mask)(side);
        let idle = mask & !pending;
        let facts = [
            pending & mask,
            zeros_beside_ones(pending & mask),
            pending & !mask,
            idle,
            idle & empty_or_changed(side),
            idle & own_bits(side.channels(), kind.bit),
            idle & wrong_statuses(side.channels(), |bytes| bytes[STATUS] & kind.bit != 0),
            idle & wrong_statuses(side.channels(), |bytes| meant_status(bytes) & kind.bit != 0),
        ];
        for (what, channels) in ON_LINES.iter().zip(facts) {
            counts.count_places(&on_lines(kind, what), channels);
        }
    }
}

fn empty_or_changed(side: &Side) -> u8 {
    pending(side.channels(), EMPTY_OR_CHANGED)
}

fn zeros_beside_ones(byte: u8) -> u8 {
    if byte == 0 {
        0
    } else {
        !byte
    }
}

/// The channels whose status byte alone is wrong, and of whose bytes a fact holds.
fn wrong_statuses(room: &[Lent], fact: impl Fn(&[u8; DEVICE_BYTES]) -> bool) -> u8 {
    channels_that(room, |lent| match lent {
        Lent::OutOfRange(bytes) => lent.wrong_status() != 0 && fact(bytes),
        Lent::InRange(_) => false,
    })
}

/// The channels out of range that would have an interrupt if their own bytes were
/// looked at.
pub fn own_bits(room: &[Lent], bit: u8) -> u8 {
    channels_that(room, |lent| match lent {
        Lent::InRange(_) => false,
        Lent::OutOfRange(bytes) if bit == TRANSMIT_READY => bytes[3] & 1 == 1 && bytes[21] == 0,
        // Not 2 and more, which need not be taken for an unread character.
        Lent::OutOfRange(bytes) => bytes[44] == 1,
    })
}
