//! The premises of demand 3: both ends freshly set up alike, written only when
//! status bit 0 is 1, and read before L more joined ticks ("Receiving").

use super::set_up::set_up;
use super::ways::Ways;
use super::{accepted_mode, Script, UNITS};
use crate::delivery::side::{Side, RECEIVE_CLOCK, TRANSMIT_CLOCK};
use crate::delivery::way::Way;
use crate::draw::Draws;

/// Joined ticks of a session, more or less, and steps at most.
const TICKS: u32 = 4000;
const STEPS: u32 = 60;

pub fn session(draws: &mut Draws, index: u32) -> Vec<u8> {
    let mut script = Script::new();
    let (modes, clocks) = modes(draws, accepted_mode(index));
    let goals = modes.map(|mode1| goal(draws, mode1, clocks));
    set_up(&mut script, draws, goals);
    let there_and_back = UNITS.map(|unit| Way::new(unit, goals[unit as usize].frames()));
    let mut ways = Ways::new(script, draws, there_and_back.to_vec());
    for _ in 0..STEPS {
        if ways.script.ticks > TICKS {
            break;
        }
        step(&mut ways, draws);
    }
    ways.drain()
}

/// Mode 1 of each end, and the clock bits of mode 2. One factor in all four
/// directions, so clocks are internal in all or in none; where all are, the
/// factor in mode 1 may be any. A stop length is the sender's own.
fn modes(draws: &mut Draws, mode1: u8) -> ([u8; 2], u8) {
    let clocks = draws.of(&[0, 0, TRANSMIT_CLOCK + RECEIVE_CLOCK]);
    let mut there = mode1;
    if draws.one_in(4) {
        there = mode1 & 63 | draws.of(&[64, 128, 192]);
    }
    if clocks != 0 {
        there = there & !3 | draws.of(&[1, 2, 3]);
    }
    ([mode1, there], clocks)
}

/// Both modes, a command with bits 0 and 2 on and 3, 6 and 7 off, pins low.
fn goal(draws: &mut Draws, mode1: u8, clocks: u8) -> Side {
    // With a factor of 16 in mode 1 a clock of its own changes nothing, but with
    // another it would.
    let own = if mode1 & 3 == 2 { draws.byte() & 48 } else { 0 };
    Side {
        mode1,
        mode2: draws.byte() & !48 | clocks | own,
        command: 5 | draws.byte() & (2 + 32),
        pins: [0; 3],
        ..Side::RESET
    }
}

fn step(ways: &mut Ways, draws: &mut Draws) {
    let unit = draws.of(&UNITS);
    match draws.below(20) {
        0..=6 => ways.write(draws, unit),
        7..=8 => ways.fetch(unit),
        9..=10 => ways.pass(draws, unit),
        11..=12 => ways.watch(draws),
        13..=14 => ways.converse(draws, unit),
        15..=16 => ways.wait_for_one(draws, unit),
        _ => ways.wait(draws),
    }
}
