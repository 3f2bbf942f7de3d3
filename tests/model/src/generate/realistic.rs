//! A bench at work: both ends set up, characters written when they may be, reads
//! mostly in time, by ticks that are counted and by waits; now and then a break, a
//! short pulse, a pin, a reset, or another mode at one end, and the longest count of
//! ticks.

use super::{accepted_mode, any_mode, limits, other, Script, UNITS};
use crate::chip::{decode, INTERNAL_RECEIVE_CLOCK, INTERNAL_TRANSMIT_CLOCK};
use crate::draw::Draws;
use crate::session::{Record, Unit};
use crate::wait::WAIT_LIMIT;
use crate::Format;

/// Joined ticks of a session, more or less, and steps at most.
const TICKS: u32 = 4000;
const STEPS: u32 = 40;
/// L of the longest frames: 64 ticks a bit, 8 bits, parity and two stop bits.
const LONGEST_FRAME: u32 = 768;

/// Transmit, DTR, receive and RTS ("Registers").
const COMMAND: u8 = 39;
const TRANSMIT: u8 = 1;
const RECEIVE: u8 = 4;
const BREAK: u8 = 8;
const RESET_ERROR: u8 = 16;

pub fn session(draws: &mut Draws, index: u32) -> Vec<u8> {
    let mut script = Script::new();
    // Ticks before there is a mode count in the tallies too.
    if draws.one_in(6) {
        script.tick(draws.between(1, 40));
    }
    let mode = accepted_mode(index);
    let mode2 = mode2(draws);
    set_up(&mut script, Unit::A, mode, mode2);
    // Unequal ends in one session of three.
    if draws.one_in(3) {
        set_up(&mut script, Unit::B, any_mode(draws), mode2);
    } else {
        set_up(&mut script, Unit::B, mode, mode2);
    }
    script.tick(1);
    for _ in 0..STEPS {
        if script.ticks > TICKS {
            break;
        }
        step(&mut script, draws);
    }
    // The longest count is dear, so few sessions have one.
    if draws.one_in(5) {
        longest(&mut script, draws);
    }
    for unit in UNITS {
        look(&mut script, unit);
    }
    script.into_bytes()
}

/// Both clocks external in one half of the cases, so that all factors are used.
fn mode2(draws: &mut Draws) -> u8 {
    let clocks = INTERNAL_TRANSMIT_CLOCK + INTERNAL_RECEIVE_CLOCK;
    if draws.one_in(2) {
        draws.byte() & !clocks
    } else {
        draws.byte()
    }
}

fn set_up(script: &mut Script, unit: Unit, mode1: u8, mode2: u8) {
    script.write(unit, 2, mode1);
    script.write(unit, 2, mode2);
    script.write(unit, 3, COMMAND);
    script.pins(unit, [0, 0, 0]);
}

fn step(script: &mut Script, draws: &mut Draws) {
    let unit = draws.of(&UNITS);
    match draws.below(46) {
        0..=11 => exchange(script, draws, unit),
        12..=15 => wait(script, draws, unit),
        16..=21 => look(script, unit),
        22 => send_break(script, draws, unit),
        23..=24 => short_pulse(script, draws, unit),
        25 => pin(script, draws, unit),
        26 => script.write(unit, 3, COMMAND | RESET_ERROR),
        27 => start_again(script, draws, unit),
        28 => another_mode(script, draws, unit),
        29..=30 => switch_off(script, draws, unit),
        31..=34 => wait_for_one(script, draws, unit),
        35..=38 => converse(script, draws, unit),
        39..=42 => wait_behind_break(script, draws, unit),
        43..=44 => wait_with_both_full(script, draws, unit),
        _ => other_registers(script, draws, unit),
    }
}

/// The format that `unit` sends in; any where no mode is set.
fn format(script: &mut Script, unit: Unit) -> Format {
    let view = script.pair.chip(unit).view();
    let internal = view.mode2 & INTERNAL_TRANSMIT_CLOCK != 0;
    decode(view.mode1.unwrap_or(accepted_mode(0)), internal)
}

/// A character, some time, and most often a look at the other end.
fn exchange(script: &mut Script, draws: &mut Draws, unit: Unit) {
    if script.may_write(unit) || draws.one_in(16) {
        script.write(unit, 0, draws.byte());
    }
    wait(script, draws, unit);
    if !draws.one_in(4) {
        look(script, other(unit));
    }
}

/// A sensible portion of ticks: a bit, a character, a frame, or some part of one.
fn wait(script: &mut Script, draws: &mut Draws, unit: Unit) {
    let format = format(script, unit);
    let (length, stop) = (format.frame_length(), format.stop_sample());
    let any = draws.between(1, length);
    let portion = draws.of(&[1, format.factor, stop, stop + 1, length, length, any, any]);
    pass(script, draws, unit, portion);
}

/// So many ticks, or a wait with this limit, most often at the other end.
fn pass(script: &mut Script, draws: &mut Draws, unit: Unit, ticks: u32) {
    let there = other(unit);
    match draws.below(6) {
        0 => drop(script.wait(unit, ticks)),
        1..=2 => drop(script.wait(there, ticks)),
        _ => script.tick(ticks),
    }
}

/// A wait with a limit of any kind, and most often a look at what ended it.
fn wait_for_one(script: &mut Script, draws: &mut Draws, unit: Unit) {
    let format = format(script, other(unit));
    let limit = limits::limit(draws, &format);
    script.wait(unit, limit);
    if !draws.one_in(4) {
        look(script, unit);
    }
}

/// A character and another one behind it, where they may be written; a wait for each
/// at the other end, which reads it.
fn converse(script: &mut Script, draws: &mut Draws, unit: Unit) {
    for _ in 0..2 {
        if script.may_write(unit) {
            script.write(unit, 0, draws.byte());
            script.tick(1);
        }
    }
    for _ in 0..2 {
        wait_for_one(script, draws, other(unit));
    }
}

/// The status, and what has come.
fn look(script: &mut Script, unit: Unit) {
    script.read(unit, 1);
    if script.unread(unit) {
        script.read(unit, 0);
    }
}

/// A break of up to three frames; a character may wait behind it, and transmit
/// may be off for a part of the guard.
fn send_break(script: &mut Script, draws: &mut Draws, unit: Unit) {
    let format = format(script, unit);
    script.write(unit, 3, COMMAND | BREAK);
    let ticks = draws.between(1, 3 * format.frame_length());
    pass(script, draws, unit, ticks);
    // What the break was heard as is read, so that a wait may go on to what follows.
    if draws.one_in(2) {
        look(script, other(unit));
    }
    if draws.one_in(2) {
        script.write(unit, 0, draws.byte());
    }
    if draws.one_in(2) {
        script.write(unit, 3, COMMAND & !TRANSMIT);
        script.tick(draws.between(1, format.factor));
    }
    script.write(unit, 3, COMMAND);
    let ticks = draws.between(1, 2 * format.frame_length());
    pass(script, draws, unit, ticks);
}

/// A break about as long as half a bit: a false start, or just not ("Receiving").
fn short_pulse(script: &mut Script, draws: &mut Draws, unit: Unit) {
    let half = format(script, unit).half();
    script.write(unit, 3, COMMAND | BREAK);
    script.tick(draws.between(1, half + 1));
    script.write(unit, 3, COMMAND);
    let ticks = draws.between(half, 4 * half + 4);
    pass(script, draws, unit, ticks);
}

/// A break, about half a bit long or longer, and a character that waits behind it, now
/// and then one from the other end too: a wait at either end passes the guard.
fn wait_behind_break(script: &mut Script, draws: &mut Draws, unit: Unit) {
    let (format, there) = (format(script, unit), other(unit));
    script.write(unit, 3, COMMAND | BREAK);
    let half = format.half();
    let most = draws.of(&[1, half.max(1), half + 1, 2 * format.frame_length()]);
    script.tick(draws.between(1, most));
    for unit in UNITS {
        look(script, unit);
    }
    script.write(unit, 0, draws.byte());
    if draws.one_in(2) && script.may_write(there) {
        script.write(there, 0, draws.byte());
    }
    if !draws.one_in(4) {
        script.write(unit, 3, COMMAND);
    }
    let limit = 2 * limits::about(draws, &format);
    script.wait(draws.of(&[unit, there, there]), limit);
    script.write(unit, 3, COMMAND);
    look(script, there);
}

/// Both ends full, and a wait at one while the other is not read.
fn wait_with_both_full(script: &mut Script, draws: &mut Draws, unit: Unit) {
    for unit in UNITS {
        fill(script, draws, unit);
    }
    let format = format(script, other(unit));
    for _ in 0..3 {
        script.wait(unit, 2 * limits::about(draws, &format));
        look(script, unit);
    }
}

/// SYN1, SYN2 and DLE in turn, the modes in turn, or the command.
fn other_registers(script: &mut Script, draws: &mut Draws, unit: Unit) {
    match draws.below(4) {
        0 => script.write(unit, 1, draws.byte()),
        1 => script.read(unit, 3),
        _ => script.read(unit, 2),
    }
}

/// One pin high for some time.
fn pin(script: &mut Script, draws: &mut Draws, unit: Unit) {
    script.pins(unit, draws.of(&[[1, 0, 0], [0, 1, 0], [0, 0, 1]]));
    wait(script, draws, unit);
    script.read(unit, 1);
    script.pins(unit, [0, 0, 0]);
}

fn start_again(script: &mut Script, draws: &mut Draws, unit: Unit) {
    let view = script.pair.chip(unit).view();
    script.add(Record::Reset(unit));
    if !draws.one_in(4) {
        set_up(
            script,
            unit,
            view.mode1.unwrap_or(accepted_mode(0)),
            view.mode2,
        );
    }
}

/// Another mode 1 at this end only; the command read puts the pointer back.
fn another_mode(script: &mut Script, draws: &mut Draws, unit: Unit) {
    script.read(unit, 3);
    script.write(unit, 2, any_mode(draws));
    if draws.one_in(2) {
        script.write(unit, 2, mode2(draws));
    }
}

/// Transmit or receive off for some time, or for none.
fn switch_off(script: &mut Script, draws: &mut Draws, unit: Unit) {
    script.write(unit, 3, COMMAND & !draws.of(&[TRANSMIT, RECEIVE, RECEIVE]));
    if draws.one_in(2) {
        wait(script, draws, unit);
        script.read(unit, 1);
    }
    // An empty RHR gives its character again.
    if draws.one_in(2) {
        script.read(unit, 0);
    }
    script.write(unit, 3, COMMAND);
}

/// The longest count of ticks, with both ends idle or full, with a break, or with one
/// end off in some way; then a character, which shows what it left.
fn longest(script: &mut Script, draws: &mut Draws) {
    for unit in UNITS {
        if script.pair.chip(unit).view().no_mode() {
            another_mode(script, draws, unit);
        }
        script.write(unit, 3, COMMAND);
        script.pins(unit, [0, 0, 0]);
    }
    // What is under way ends.
    script.tick(4 * LONGEST_FRAME);
    let unit = draws.of(&UNITS);
    let waits = draws.byte();
    match draws.below(12) {
        0 => {}
        1 | 9 => script.write(unit, 3, COMMAND | BREAK),
        2 => script.write(unit, 3, COMMAND & !TRANSMIT),
        3 => script.write(unit, 3, COMMAND & !RECEIVE),
        4 => script.pins(unit, [0, 1, 0]),
        5 => script.pins(unit, [0, 0, 1]),
        6 => script.add(Record::Reset(unit)),
        7 | 10 => {
            script.write(unit, 3, COMMAND | BREAK);
            script.tick(1);
            script.write(unit, 3, COMMAND);
        }
        _ => UNITS.into_iter().for_each(|unit| fill(script, draws, unit)),
    }
    if draws.one_in(3) {
        script.write(unit, 0, waits);
    }
    match draws.below(4) {
        0 => drop(script.wait(draws.of(&UNITS), WAIT_LIMIT)),
        _ => script.add(Record::JoinedTicks(u16::MAX)),
    }
    UNITS.into_iter().for_each(|unit| look(script, unit));
    script.write(unit, 3, COMMAND);
    script.pins(unit, [0, 0, 0]);
    exchange(script, draws, unit);
}

/// A character under way, and one waiting.
fn fill(script: &mut Script, draws: &mut Draws, unit: Unit) {
    for _ in 0..2 {
        script.write(unit, 0, draws.byte());
        script.tick(1);
    }
}
