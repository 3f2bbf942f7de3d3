//! What the sessions of demand 3 reach, by name; each name must be reached, and each of
//! a wait often.

use super::side::{Side, BREAK, RECEIVE, TRANSMIT};
use super::way::{Way, MAY_WRITE, OVERRUN};
use super::Call;
use crate::session::{Record, Unit};
use std::cmp::Ordering;

/// Of waits, which P12 of the change requests promises to end.
pub const OF_WAITS: [&str; 15] = [
    "refusal 21 in a set-up",
    "wait of limit 0 in a set-up",
    "wait for the one joined tick of a set-up",
    "wait on a way, limit 0",
    "wait on a way with a character there",
    "wait on a way with nothing to come",
    "wait on a way for a character to come, limit below L+D",
    "wait on a way for a character to come, limit L+D",
    "wait on a way for a character to come, limit above L+D",
    "wait on a way for a frame that starts with its first tick",
    "wait on a way for a frame that starts later",
    "wait on a way that brings a character with its last tick",
    "wait on a way that ends a tick before a character",
    "wait on a way at the end that sends",
    "wait on a way at the end that sends, with an arrival",
];

pub const NAMES: [&str; 36] = [
    "set-up mixed between units",
    "set-up after ticks or characters",
    "reset in the middle of a set-up",
    "mode 1 replaced in a set-up",
    "mode 2 replaced in a set-up",
    "mode pointer moved by a read in a set-up",
    "mode pointer put back in a set-up",
    "command replaced in a set-up",
    "pins before modes in a set-up",
    "modes before pins in a set-up",
    "SYN write in a set-up",
    "read in a set-up",
    "refusal 1 in a set-up",
    "refusal 2 in a set-up",
    "refusal 3 in a set-up",
    "refusal 4 in a set-up",
    "refusal 5 in a set-up",
    "refusal 6 in a set-up",
    "refusal 7 in a set-up",
    "no permission",
    "no permission a tick before",
    "permission at its tick",
    "permission after a write",
    "character behind another",
    "no arrival a tick before",
    "arrival at its tick",
    "read in the last tick allowed",
    "overrun on the other way",
    "unasked write on the other way",
    "arrival with receive off at the sender",
    "arrival with DCD high at the sender",
    "arrival with DSR high at the sender",
    "arrival with transmit off at the receiver",
    "arrival with a break at the receiver",
    "arrival with CTS high at the receiver",
    "arrival with DSR high at the receiver",
];

/// The names whose condition holds.
fn holding<const N: usize>(conditions: [(bool, &'static str); N]) -> Vec<&'static str> {
    let holding = conditions.into_iter().filter(|(holds, _)| *holds);
    holding.map(|(_, name)| name).collect()
}

/// A set-up's calls up to its joined tick.
pub fn in_set_up(calls: &[Call]) -> Vec<&'static str> {
    let mut reached = Vec::new();
    let mut called = [false; 2];
    let mut latest = None;
    for call in calls {
        let record = match call.record {
            Ok(record) => record,
            Err(number) => {
                let name = format!("refusal {number} in a set-up");
                let mut names = NAMES.into_iter().chain(OF_WAITS);
                reached.extend(names.find(|known| *known == name));
                continue;
            }
        };
        let Some(unit) = record.unit() else {
            let waits = matches!(record, Record::Wait(_, 0));
            reached.extend(waits.then_some("wait of limit 0 in a set-up"));
            continue;
        };
        let again = called[unit as usize];
        reached.extend(holding([
            (again && latest != Some(unit), "set-up mixed between units"),
            (
                again && call.resets(unit),
                "reset in the middle of a set-up",
            ),
        ]));
        reached.extend(at_side(record, &call.before[unit as usize]));
        called[unit as usize] = true;
        latest = Some(unit);
    }
    reached
}

/// A set-up's call that is done, and its side before it.
fn at_side(record: Record, side: &Side) -> Option<&'static str> {
    let name = match record {
        Record::Read(_, 3) if side.mode2_next => "mode pointer put back in a set-up",
        Record::Read(_, 2) => "mode pointer moved by a read in a set-up",
        Record::Read(..) => "read in a set-up",
        Record::Write(_, 1, _) => "SYN write in a set-up",
        Record::Write(_, 2, value) if side.mode2_next => {
            return (![0, value].contains(&side.mode2)).then_some("mode 2 replaced in a set-up");
        }
        Record::Write(_, 2, _) if side.mode1 == 0 && side.pins == [0; 3] => {
            "pins before modes in a set-up"
        }
        Record::Write(_, 2, value) if ![0, value].contains(&side.mode1) => {
            "mode 1 replaced in a set-up"
        }
        Record::Write(_, 3, value) if ![0, value].contains(&side.command) => {
            "command replaced in a set-up"
        }
        Record::Pins(_, [0, 0, 0]) if side.mode1 != 0 && side.pins != [0; 3] => {
            "modes before pins in a set-up"
        }
        _ => return None,
    };
    Some(name)
}

/// A call on the way or one joined tick, before it is done; `previous` is the
/// line before it.
pub fn by_call(way: &Way, record: Record, call: &Call, previous: &Call) -> Vec<&'static str> {
    let reads = |unit, address| matches!(record, Record::Read(u, a) if (u, a) == (unit, address));
    let writes = |unit| matches!(record, Record::Write(u, 0, _) if u == unit);
    let (sender, receiver) = (reads(way.from, 1), reads(way.to(), 1));
    let was_refused = matches!(previous.record, Ok(Record::Read(u, 1)) if u == way.to())
        && previous.value & MAY_WRITE == 0;
    holding([
        (sender && !way.may_write(), "no permission"),
        (sender && way.begins_next(), "no permission a tick before"),
        (sender && way.has_just_begun(), "permission at its tick"),
        (
            sender && way.is_written() && way.may_write(),
            "permission after a write",
        ),
        (
            writes(way.from) && way.is_busy(),
            "character behind another",
        ),
        (receiver && way.comes_next(), "no arrival a tick before"),
        (receiver && way.has_just_come(), "arrival at its tick"),
        (
            reads(way.to(), 0) && way.must_read(),
            "read in the last tick allowed",
        ),
        (
            sender && call.value & OVERRUN != 0,
            "overrun on the other way",
        ),
        (
            writes(way.to()) && was_refused,
            "unasked write on the other way",
        ),
    ])
}

/// The two ends at a tick with which a character comes.
pub fn at_arrival(from: &Side, to: &Side) -> Vec<&'static str> {
    let on = |side: &Side, bit| side.command & bit != 0;
    let high = |side: &Side, pin: usize| side.pins[pin] == 1;
    holding([
        (!on(from, RECEIVE), "arrival with receive off at the sender"),
        (high(from, 1), "arrival with DCD high at the sender"),
        (high(from, 0), "arrival with DSR high at the sender"),
        (
            !on(to, TRANSMIT),
            "arrival with transmit off at the receiver",
        ),
        (on(to, BREAK), "arrival with a break at the receiver"),
        (high(to, 2), "arrival with CTS high at the receiver"),
        (high(to, 0), "arrival with DSR high at the receiver"),
    ])
}

/// A wait at a unit: the way before it and behind it.
pub fn by_wait(before: &Way, after: &Way, unit: Unit, limit: u32) -> Vec<&'static str> {
    let comes = !before.is_unread() && after.is_unread();
    if unit == before.from {
        return holding([
            (true, "wait on a way at the end that sends"),
            (
                comes,
                "wait on a way at the end that sends, with an arrival",
            ),
        ]);
    }
    let mut reached = holding([
        (
            comes && before.starts_next(),
            "wait on a way for a frame that starts with its first tick",
        ),
        (
            comes && before.starts_later(),
            "wait on a way for a frame that starts later",
        ),
        (
            comes && before.comes_in() == Some(limit),
            "wait on a way that brings a character with its last tick",
        ),
        (
            limit > 0 && !before.is_unread() && after.comes_next(),
            "wait on a way that ends a tick before a character",
        ),
    ]);
    reached.push(by_limit(before, limit));
    reached
}

/// A wait at the end to which the way leads, by its limit.
fn by_limit(way: &Way, limit: u32) -> &'static str {
    match limit.cmp(&way.bound()) {
        _ if limit == 0 => "wait on a way, limit 0",
        _ if way.is_unread() => "wait on a way with a character there",
        _ if !way.is_under_way() => "wait on a way with nothing to come",
        Ordering::Less => "wait on a way for a character to come, limit below L+D",
        Ordering::Equal => "wait on a way for a character to come, limit L+D",
        Ordering::Greater => "wait on a way for a character to come, limit above L+D",
    }
}
