//! The session program: the text that two joined chips answer to a text of
//! records.
//!
//! The input is cut into lines first; each line is then read as a record or
//! refused, and each record acts on the chips, which may refuse it too. The
//! sections named are those of document 01; where none is named it is "The
//! session text". P4 and P12 are those requests of document 02, the change
//! requests.

use crate::chip::{joined_ticks, Chip};
use crate::wait::wait;
use std::fmt;

/// Lines taken, refused ones too.
const MOST_LINES: usize = 65_535;
/// Bytes of a line, its newline not counted.
const LONGEST_LINE: usize = 64;
/// Digits of a decimal field.
const MOST_DIGITS: usize = 5;

// "Refusal numbers": the two that are the session's own.
const NO_SHAPE: u8 = 6;
const TOO_LONG: u8 = 7;

#[derive(Clone, Copy, Debug, PartialEq, Eq)]
pub enum Unit {
    A,
    B,
}

pub const UNITS: [Unit; 2] = [Unit::A, Unit::B];

pub fn other(unit: Unit) -> Unit {
    match unit {
        Unit::A => Unit::B,
        Unit::B => Unit::A,
    }
}

/// A line of a known shape.
#[derive(Clone, Copy, Debug)]
pub enum Record {
    Write(Unit, u8, u8),
    Read(Unit, u8),
    /// The levels of DSR, DCD and CTS, in this order.
    Pins(Unit, [u8; 3]),
    Reset(Unit),
    JoinedTicks(u16),
    /// A wait for a character at a unit (P12), and its limit, which may be too high.
    Wait(Unit, u32),
}

impl Record {
    /// The unit that is called; joined ticks are of both, those of a wait too.
    pub fn unit(&self) -> Option<Unit> {
        match *self {
            Record::Write(unit, ..)
            | Record::Read(unit, _)
            | Record::Pins(unit, _)
            | Record::Reset(unit) => Some(unit),
            Record::JoinedTicks(_) | Record::Wait(..) => None,
        }
    }
}

/// The line of the record, with its newline.
impl fmt::Display for Record {
    fn fmt(&self, f: &mut fmt::Formatter) -> fmt::Result {
        match *self {
            Record::Write(u, address, value) => writeln!(f, "W\t{}\t{address}\t{value}", letter(u)),
            Record::Read(u, address) => writeln!(f, "R\t{}\t{address}", letter(u)),
            Record::Pins(u, [dsr, dcd, cts]) => {
                writeln!(f, "P\t{}\t{dsr}\t{dcd}\t{cts}", letter(u))
            }
            Record::Reset(u) => writeln!(f, "Z\t{}", letter(u)),
            Record::JoinedTicks(count) => writeln!(f, "L\t{count}"),
            Record::Wait(u, limit) => writeln!(f, "B\t{}\t{limit}", letter(u)),
        }
    }
}

/// What the records of a session act on.
pub trait Bench {
    /// The text that a record answers, which is empty for all but a read and a wait,
    /// or the refusal.
    fn act(&mut self, record: Record) -> Result<String, u8>;
}

/// What a wait answers on a bench with a pair, whose joined ticks are done one by one.
pub fn act_wait<B: Bench>(
    bench: &mut B,
    pair: fn(&B) -> &Pair,
    unit: Unit,
    limit: u32,
) -> Result<String, u8> {
    let holds = |bench: &B| pair(bench).holds_unread(unit);
    let tick = |bench: &mut B| {
        let ticked = bench.act(Record::JoinedTicks(1));
        assert_eq!(ticked, Ok(String::new()), "a joined tick is never refused");
    };
    let spent = wait(bench, limit, holds, tick)?;
    Ok(format!("B\t{}\t{spent}\n", letter(unit)))
}

/// The whole output for the whole input.
pub fn answer(input: &[u8]) -> Vec<u8> {
    answer_on(&mut Pair::just_reset(), input)
}

/// The same, on a bench that is at its beginning.
pub fn answer_on(bench: &mut impl Bench, input: &[u8]) -> Vec<u8> {
    let mut output = String::new();
    let (mut taken, mut refused) = (0, 0);
    for line in lines(input).take(MOST_LINES) {
        taken += 1;
        match parse(line).and_then(|record| bench.act(record)) {
            Ok(text) => output += &text,
            Err(number) => {
                refused += 1;
                output += &format!("E\t{taken}\t{number}\n");
            }
        }
    }
    output += &format!("N\t{taken}\t{refused}\n");
    output.into_bytes()
}

/// The lines of `input` without their newlines. The last may lack its own; what
/// follows a last newline is no line.
pub fn lines(input: &[u8]) -> impl Iterator<Item = &[u8]> {
    input
        .split_inclusive(|&byte| byte == b'\n')
        .map(|line| line.strip_suffix(b"\n").unwrap_or(line))
}

/// The record that a line is, or its refusal: 7 comes before 6.
pub fn parse(line: &[u8]) -> Result<Record, u8> {
    if line.len() > LONGEST_LINE {
        return Err(TOO_LONG);
    }
    record(line).ok_or(NO_SHAPE)
}

/// The record that a line is, if it has a known shape. The whole line is judged
/// here, before any chip is asked: 6 comes before a chip's own number.
fn record(line: &[u8]) -> Option<Record> {
    let fields: Vec<&[u8]> = line.split(|&byte| byte == b'\t').collect();
    let record = match fields[..] {
        [b"W", u, address, value] => Record::Write(unit(u)?, decimal(address)?, decimal(value)?),
        [b"R", u, address] => Record::Read(unit(u)?, decimal(address)?),
        [b"P", u, dsr, dcd, cts] => {
            Record::Pins(unit(u)?, [decimal(dsr)?, decimal(dcd)?, decimal(cts)?])
        }
        [b"Z", u] => Record::Reset(unit(u)?),
        [b"L", count] => Record::JoinedTicks(decimal(count)?),
        [b"B", u, limit] => Record::Wait(unit(u)?, decimal(limit)?),
        _ => return None,
    };
    Some(record)
}

fn unit(field: &[u8]) -> Option<Unit> {
    match field {
        b"A" => Some(Unit::A),
        b"B" => Some(Unit::B),
        _ => None,
    }
}

/// The number of a decimal field. The type asked for sets its limit: a byte for
/// addresses, values and levels, 16 bits for counts; any five digits fit the 32 bits
/// of a wait's limit.
fn decimal<T: TryFrom<u32>>(field: &[u8]) -> Option<T> {
    let digits = field.iter().all(u8::is_ascii_digit);
    if !digits || field.is_empty() || field.len() > MOST_DIGITS {
        return None;
    }
    let number = field
        .iter()
        .fold(0, |sum, digit| 10 * sum + u32::from(digit - b'0'));
    T::try_from(number).ok()
}

/// The two chips, joined by a line.
pub struct Pair {
    pub a: Chip,
    pub b: Chip,
}

impl Pair {
    pub fn just_reset() -> Pair {
        Pair {
            a: Chip::just_reset(),
            b: Chip::just_reset(),
        }
    }

    pub fn chip(&mut self, unit: Unit) -> &mut Chip {
        match unit {
            Unit::A => &mut self.a,
            Unit::B => &mut self.b,
        }
    }

    pub fn holds_unread(&self, unit: Unit) -> bool {
        match unit {
            Unit::A => self.a.holds_unread(),
            Unit::B => self.b.holds_unread(),
        }
    }
}

impl Bench for Pair {
    fn act(&mut self, record: Record) -> Result<String, u8> {
        match record {
            Record::Write(unit, address, value) => done(self.chip(unit).write(address, value))?,
            Record::Read(unit, address) => {
                let (refusal, value) = self.chip(unit).read(address);
                done(refusal)?;
                let mut line = format!("R\t{}\t{address}\t{value}", letter(unit));
                if address == 0 {
                    // P4: when the character that was read came.
                    line += &format!("\t{}", self.chip(unit).stamp());
                }
                return Ok(line + "\n");
            }
            Record::Pins(unit, [dsr, dcd, cts]) => done(self.chip(unit).set_pins(dsr, dcd, cts))?,
            Record::Reset(unit) => self.chip(unit).reset(),
            Record::JoinedTicks(count) => joined_ticks(&mut self.a, &mut self.b, count.into()),
            Record::Wait(unit, limit) => return act_wait(self, |pair| pair, unit, limit),
        }
        Ok(String::new())
    }
}

fn letter(unit: Unit) -> char {
    match unit {
        Unit::A => 'A',
        Unit::B => 'B',
    }
}

/// A chip's number as a result; 0 is done ("Refusal numbers").
fn done(number: u8) -> Result<(), u8> {
    match number {
        0 => Ok(()),
        refusal => Err(refusal),
    }
}
