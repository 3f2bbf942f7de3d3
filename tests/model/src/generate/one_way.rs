//! One way of the line by itself ("Receiving"): its sender writes only when status
//! bit 0 is 1, and its receiver reads in time. What the way does not rest on is
//! misused: the other way, and the pins and command bits that only that one needs.

use super::set_up::set_up;
use super::ways::Ways;
use super::{accepted_mode, any_mode, other, Script, ACCEPTED_MODES, UNITS};
use crate::delivery::side::{Side, BREAK, RECEIVE, RESET_ERROR, TRANSMIT};
use crate::delivery::side::{EVEN, LENGTH, PARITY, RECEIVE_CLOCK, TRANSMIT_CLOCK};
use crate::delivery::way::Way;
use crate::draw::Draws;
use crate::session::{Record, Unit};

/// Joined ticks of a session, more or less, and steps at most.
const TICKS: u32 = 3000;
const STEPS: u32 = 60;
/// DTR, reset error and RTS, which no way rests on.
const OF_NO_WAY: u8 = 2 + RESET_ERROR + 32;

/// The side that sends on the right way: each accepted mode is sent from both.
pub fn sender(index: u32) -> Unit {
    UNITS[(index / ACCEPTED_MODES) as usize % 2]
}

pub fn session(draws: &mut Draws, index: u32) -> Vec<u8> {
    let from = sender(index);
    let sending = sending(draws, accepted_mode(index));
    let receiving = receiving(draws, &sending);
    let mut goals = [sending, receiving];
    if from == Unit::B {
        goals.swap(0, 1);
    }
    let mut script = Script::new();
    set_up(&mut script, draws, goals);
    let mut ways = Ways::new(script, draws, vec![Way::new(from, sending.frames())]);
    for _ in 0..STEPS {
        if ways.script.ticks > TICKS {
            break;
        }
        step(&mut ways, draws, from);
    }
    ways.drain()
}

fn sending(draws: &mut Draws, mode1: u8) -> Side {
    Side {
        mode1,
        mode2: draws.byte(),
        command: sender_command(draws) & !RESET_ERROR,
        pins: sender_pins(draws),
        ..Side::RESET
    }
}

/// A receiver of what `sending` sends: length, parity and the effective factor are
/// the same, and all else is its own.
fn receiving(draws: &mut Draws, sending: &Side) -> Side {
    let shared = match sending.mode1 & PARITY {
        0 => LENGTH + PARITY,
        _ => LENGTH + PARITY + EVEN,
    };
    let mut mode1 = any_mode(draws) & !shared | sending.mode1 & shared;
    let mut mode2 = draws.byte();
    if sending.factor(TRANSMIT_CLOCK) != 16 {
        mode1 = mode1 & !3 | sending.mode1 & 3;
        mode2 &= !RECEIVE_CLOCK;
    } else if mode1 & 3 != 2 {
        mode2 |= RECEIVE_CLOCK;
    }
    Side {
        mode1,
        mode2,
        command: receiver_command(draws) & !RESET_ERROR,
        pins: receiver_pins(draws),
        ..Side::RESET
    }
}

/// Transmit on and break off; receive is on mostly, so that the other way is used.
fn sender_command(draws: &mut Draws) -> u8 {
    TRANSMIT | draws.of(&[RECEIVE, RECEIVE, 0]) | draws.byte() & OF_NO_WAY
}

/// Receive on; transmit is on and break off mostly.
fn receiver_command(draws: &mut Draws) -> u8 {
    let own = draws.of(&[TRANSMIT, TRANSMIT, TRANSMIT, 0, TRANSMIT + BREAK]);
    RECEIVE | own | draws.byte() & OF_NO_WAY
}

/// CTS low, and the others mostly.
fn sender_pins(draws: &mut Draws) -> [u8; 3] {
    draws.of(&[[0, 0, 0], [0, 0, 0], [1, 0, 0], [0, 1, 0], [1, 1, 0]])
}

/// DCD low, and the others mostly.
fn receiver_pins(draws: &mut Draws) -> [u8; 3] {
    draws.of(&[[0, 0, 0], [0, 0, 0], [1, 0, 0], [0, 0, 1], [1, 0, 1]])
}

fn step(ways: &mut Ways, draws: &mut Draws, from: Unit) {
    let to = other(from);
    let either = draws.of(&UNITS);
    match draws.below(28) {
        0..=5 => ways.write(draws, from),
        6..=7 => ways.fetch(to),
        8..=9 => ways.pass(draws, either),
        10 => ways.add(Record::Write(from, 3, sender_command(draws))),
        11 => ways.add(Record::Write(to, 3, receiver_command(draws))),
        12 => ways.add(Record::Pins(from, sender_pins(draws))),
        13 => ways.add(Record::Pins(to, receiver_pins(draws))),
        // At any time, and seldom read.
        14..=17 => {
            ways.add(Record::Read(to, 1));
            ways.add(Record::Write(to, 0, draws.byte()));
        }
        18..=19 => ways.watch(draws),
        20..=21 => ways.converse(draws, to),
        22 => ways.wait_for_one(draws, to),
        23 => ways.wait_for_one(draws, from),
        _ => ways.wait(draws),
    }
}
