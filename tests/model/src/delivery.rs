//! Demand 3 from the text of a session and its answer alone, for each way by
//! itself: when a sender may write, at which joined tick each character comes,
//! what is read, with which stamp, that no flag is seen ("Receiving"), and when a wait
//! for a character ends. Also what the registers alone tell: the lines that are refused, and reads of
//! them.
//!
//! Nothing here leans on the model's chip. The sections named are those of
//! document 01; stamps and waits are those of P4 and P12 of document 02, the change
//! requests.

pub mod reached;
pub mod side;
pub mod way;

use crate::session::{lines, other, parse, Record, Unit, UNITS};
use side::Side;
use std::str::Lines;
use way::Way;

/// A line of a session: its number, its record or its refusal, the value that it
/// read, with the stamp where that is a character, its joined ticks, and both sides before it and after it.
pub struct Call {
    line: usize,
    record: Result<Record, u8>,
    value: u8,
    stamp: u32,
    ticks: u16,
    before: [Side; 2],
    after: [Side; 2],
}

impl Call {
    fn resets(&self, unit: Unit) -> bool {
        matches!(self.record, Ok(Record::Reset(at)) if at == unit)
    }

    /// A tick, or a character written: no part of a set-up.
    fn begins_something(&self) -> bool {
        self.ticks > 0 || matches!(self.record, Ok(Record::Write(_, 0, _)))
    }

    /// The value read has the bits that it must show.
    fn must_show(&self, (bits, value): (u8, u8)) -> Result<(), String> {
        if self.value & bits == value {
            return Ok(());
        }
        Err(format!(
            "line {} reads {}, which must be {value} under a mask of {bits}",
            self.line, self.value
        ))
    }

    fn must_have_stamp(&self, stamp: u32) -> Result<(), String> {
        if self.stamp == stamp {
            return Ok(());
        }
        Err(format!(
            "line {} reads a stamp of {}, which must be {stamp}",
            self.line, self.stamp
        ))
    }
}

/// What was reached on the ways from `senders`, or what the answer breaks of
/// demand 3 there; also where the session does not keep its premises. Where there
/// is no sender, nothing is asked.
pub fn judge(session: &[u8], answer: &[u8], senders: &[Unit]) -> Result<Vec<&'static str>, String> {
    if senders.is_empty() {
        return Ok(Vec::new());
    }
    let answer = String::from_utf8_lossy(answer);
    let calls = calls(session, answer.lines())?;
    let (begin, tick) = set_up(&calls).ok_or("the ends are not freshly set up")?;
    let mut reached = reached::in_set_up(&calls[begin..tick]);
    if begin > 0 {
        reached.push("set-up after ticks or characters");
    }
    if let Ok(Record::Wait(..)) = calls[tick].record {
        reached.push("wait for the one joined tick of a set-up");
    }
    for &from in senders {
        reached.extend(follow(from, &calls[tick..])?);
    }
    Ok(reached)
}

/// The lines of the session, each with its part of the answer.
fn calls(session: &[u8], mut answer: Lines) -> Result<Vec<Call>, String> {
    let mut calls = Vec::new();
    let mut sides = [Side::RESET; 2];
    let mut refused = 0;
    for (line, text) in (1..).zip(lines(session)) {
        let call = call(line, parse(text), sides, &mut answer)?;
        sides = call.after;
        refused += usize::from(call.record.is_err());
        calls.push(call);
    }
    let counts = format!("N\t{}\t{refused}", calls.len());
    if answer.next() != Some(&counts) || answer.next().is_some() {
        return Err(format!("the answer does not end with {counts:?}"));
    }
    Ok(calls)
}

/// One line, and what the registers tell of its answer.
fn call(
    line: usize,
    record: Result<Record, u8>,
    before: [Side; 2],
    answer: &mut Lines,
) -> Result<Call, String> {
    let record = record.and_then(|record| accepted(record, &before));
    let (number, stamp) = answered(line, record, answer)?;
    let (value, ticks) = match record {
        Ok(Record::JoinedTicks(count)) => (0, count),
        Ok(Record::Wait(..)) => (0, number),
        _ => (number as u8, 0),
    };
    let mut after = before;
    let mut told = (0, 0);
    if let Ok(record) = record {
        if let Some(unit) = record.unit() {
            told = before[unit as usize].shows(record);
            after[unit as usize].take(record);
        }
    }
    let call = Call {
        line,
        record,
        value,
        stamp,
        ticks,
        before,
        after,
    };
    call.must_show(told).map(|()| call)
}

/// What a read reads, and what a wait spends, and behind a read of address 0 the stamp;
/// 0 of any other line. Only a refusal is answered too.
fn answered(
    line: usize,
    record: Result<Record, u8>,
    answer: &mut Lines,
) -> Result<(u16, u32), String> {
    let missing = |what: &str| format!("line {line} is not answered with {what:?}");
    let (begins, most) = match record {
        Ok(Record::Read(unit, address)) => (format!("R\t{unit:?}\t{address}\t"), 255),
        Ok(Record::Wait(unit, limit)) => (format!("B\t{unit:?}\t"), limit),
        Ok(_) => return Ok((0, 0)),
        Err(number) => {
            let refusal = format!("E\t{line}\t{number}");
            let is_there = answer.next() == Some(&refusal);
            return is_there.then_some((0, 0)).ok_or_else(|| missing(&refusal));
        }
    };
    let rest = answer.next().and_then(|text| text.strip_prefix(&begins));
    let fields: Vec<&str> = rest.map_or(Vec::new(), |rest| rest.split('\t').collect());
    let is_stamped = matches!(record, Ok(Record::Read(_, 0)));
    let numbers = match fields[..] {
        [number] if !is_stamped => number.parse().ok().zip(Some(0)),
        [number, stamp] if is_stamped => number.parse().ok().zip(stamp.parse().ok()),
        _ => None,
    };
    let numbers = numbers.filter(|&(number, _): &(u16, u32)| u32::from(number) <= most);
    numbers.ok_or_else(|| missing(&begins))
}

fn accepted(record: Record, sides: &[Side; 2]) -> Result<Record, u8> {
    let refusal = match (record, record.unit()) {
        (Record::Wait(_, 65_536..), _) => 21,
        (_, Some(unit)) => sides[unit as usize].refusal(record),
        (_, None) => 0,
    };
    match refusal {
        0 => Ok(record),
        refusal => Err(refusal),
    }
}

/// Where the set-up begins, and its one joined tick: the first one after the last
/// reset. Both ends begin as after reset, or are reset in the set-up.
fn set_up(calls: &[Call]) -> Option<(usize, usize)> {
    let is_reset = |call: &Call| UNITS.iter().any(|&unit| call.resets(unit));
    let last_reset = calls.iter().rposition(is_reset).unwrap_or(0);
    let until_tick = calls[last_reset..].iter().position(|call| call.ticks > 0)?;
    let tick = last_reset + until_tick;
    let before = calls[..tick].iter().rposition(Call::begins_something);
    let begin = before.map_or(0, |place| place + 1);
    let is_reset_there = |unit| calls[begin..tick].iter().any(|call| call.resets(unit));
    (begin == 0 || UNITS.into_iter().all(is_reset_there)).then_some((begin, tick))
}

/// What was reached on the way from `from`, beginning with the line of the one
/// joined tick.
fn follow(from: Unit, calls: &[Call]) -> Result<Vec<&'static str>, String> {
    let ends = |sides: &[Side; 2]| [from, other(from)].map(|unit| sides[unit as usize]);
    let [sender, receiver] = ends(&calls[0].before);
    if !sender.is_open_to(&receiver) {
        return Err(format!("the way from {from:?} is not set up"));
    }
    let mut way = Way::new(from, sender.frames());
    // Of the first line's ticks the first one is the set-up's.
    let mut reached = passed(&mut way, &calls[0], 1)?;
    for pair in calls.windows(2) {
        let (previous, call) = (&pair[0], &pair[1]);
        let [sender, receiver] = ends(&call.after);
        if !sender.is_open_to(&receiver) {
            return Err(format!("line {} closes the way from {from:?}", call.line));
        }
        reached.extend(match call.record {
            Ok(Record::JoinedTicks(_) | Record::Wait(..)) => passed(&mut way, call, 0)?,
            Ok(record) => done(&mut way, record, call, previous)?,
            Err(_) => continue,
        });
    }
    if way.is_under_way() || way.is_unread() {
        return Err(format!("not all is read that {from:?} wrote"));
    }
    Ok(reached)
}

/// The joined ticks of a line but for the first ones, so many.
fn passed(way: &mut Way, call: &Call, first: u16) -> Result<Vec<&'static str>, String> {
    let left = call.ticks - first;
    match call.record {
        Ok(Record::Wait(unit, limit)) => waited(way, call, unit, limit, left),
        _ => ticks(way, left, call),
    }
}

/// A wait, of whose joined ticks some are left. At the end to which the way leads it
/// goes on while no character is there, and ends where one is, or with its limit. In
/// any case it ends with one after at most L+D ticks, where one was to come and the
/// limit is as high.
fn waited(
    way: &mut Way,
    call: &Call,
    unit: Unit,
    limit: u32,
    left: u16,
) -> Result<Vec<&'static str>, String> {
    let fault = |what: &str| Err(format!("the wait of line {} {what}", call.line));
    let (before, here, spent) = (way.clone(), unit == way.to(), u32::from(call.ticks));
    let mut reached = Vec::new();
    for _ in 0..left {
        if here && way.is_unread() {
            return fault("goes on with a character there");
        }
        reached.extend(ticks(way, 1, call)?);
    }
    if here && !way.is_unread() && spent < limit {
        return fault("ends with no character there");
    }
    let is_promised = here && before.is_under_way() && limit >= way.bound();
    if is_promised && !(way.is_unread() && spent <= way.bound()) {
        return fault("brings no character within L+D ticks");
    }
    reached.extend(reached::by_wait(&before, way, unit, limit));
    Ok(reached)
}

fn ticks(way: &mut Way, count: u16, call: &Call) -> Result<Vec<&'static str>, String> {
    let mut reached = Vec::new();
    for _ in 0..count {
        if way.must_read() {
            return Err(format!("line {} comes before a read", call.line));
        }
        way.tick();
        if way.has_just_come() {
            let [from, to] = [way.from, way.to()].map(|unit| &call.after[unit as usize]);
            reached.extend(reached::at_arrival(from, to));
        }
    }
    Ok(reached)
}

/// A call that is done.
fn done(
    way: &mut Way,
    record: Record,
    call: &Call,
    previous: &Call,
) -> Result<Vec<&'static str>, String> {
    if !way.allows(record) {
        return Err(format!("line {} is not allowed on the way", call.line));
    }
    call.must_show(way.shows(record))?;
    if let Record::Read(unit, 0) = record {
        if unit == way.to() {
            call.must_have_stamp(way.stamp())?;
        }
    }
    let reached = reached::by_call(way, record, call, previous);
    way.take(record);
    Ok(reached)
}
