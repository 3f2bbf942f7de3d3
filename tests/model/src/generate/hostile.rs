//! Any number at any time: what no bench would do, with frames under way.

use super::{accepted_mode, any_mode, limits, Script, UNITS};
use crate::draw::Draws;
use crate::session::{Record, Unit};

pub fn session(draws: &mut Draws, index: u32) -> Vec<u8> {
    let mut script = Script::new();
    // Most sessions begin with chips that can send: the rest is soon refused or
    // does nothing.
    if !draws.one_in(8) {
        let opening = opening(draws, index);
        opening.into_iter().for_each(|record| script.add(record));
    }
    for _ in 0..draws.between(1, 60) {
        let record = record(draws);
        script.add(record);
    }
    // A long count is dear, so few sessions have one.
    if draws.one_in(40) {
        script.tick(draws.between(1000, 65_535));
    }
    for address in 0..4 {
        script.read(Unit::A, address);
        script.read(Unit::B, address);
    }
    script.into_bytes()
}

/// Modes near the one at `index`, commands and low pins for both units.
pub fn opening(draws: &mut Draws, index: u32) -> Vec<Record> {
    let mut records = Vec::new();
    for unit in UNITS {
        let mode1 = accepted_mode(index + draws.below(3));
        records.push(Record::Write(unit, 2, mode1));
        records.push(Record::Write(unit, 2, draws.byte()));
        records.push(Record::Write(unit, 3, command(draws)));
        records.push(Record::Pins(unit, [0; 3]));
    }
    records
}

/// A record of any kind with any numbers, those that do something more often.
pub fn record(draws: &mut Draws) -> Record {
    let unit = draws.of(&UNITS);
    match draws.below(36) {
        0..=4 => Record::Write(unit, 0, draws.byte()),
        5..=6 => Record::Write(unit, 2, mode(draws)),
        7..=8 => Record::Write(unit, 3, command(draws)),
        9 => Record::Write(unit, draws.byte(), draws.byte()),
        10..=11 => Record::Write(unit, draws.below(5) as u8, draws.byte()),
        12..=16 => Record::Read(unit, draws.below(4) as u8),
        17 => Record::Read(unit, draws.byte()),
        18..=19 => Record::Pins(unit, [(); 3].map(|()| level(draws))),
        20 => Record::Reset(unit),
        21..=24 => Record::Wait(unit, limits::any(draws)),
        _ => Record::JoinedTicks(count(draws)),
    }
}

fn mode(draws: &mut Draws) -> u8 {
    if draws.one_in(3) {
        draws.byte()
    } else {
        any_mode(draws)
    }
}

/// Mostly transmit and receive, and any of the other bits.
fn command(draws: &mut Draws) -> u8 {
    match draws.below(4) {
        0 => draws.byte(),
        1 => 39 | draws.byte() & 31,
        _ => 37,
    }
}

/// Mostly low, so that something is sent and heard.
fn level(draws: &mut Draws) -> u8 {
    match draws.below(16) {
        0 => draws.byte(),
        1..=3 => 1,
        _ => 0,
    }
}

fn count(draws: &mut Draws) -> u16 {
    let most = draws.of(&[0, 1, 1, 8, 20, 20, 200, 200, 200, 800]);
    draws.between(most.min(1), most) as u16
}
