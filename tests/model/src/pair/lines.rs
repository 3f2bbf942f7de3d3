//! The text of the pair's C driver: a call on each line and one line for its answer.
//! Further lines set the bytes of a device and show those of both.

use super::{Answer, Call, Pair};
use crate::calls::{hexadecimal, numbers, Lent, DEVICE_BYTES};
use crate::driver::Entry;
use crate::session::Unit;
use crate::shorten::smaller;
use std::fmt;

/// A line of the driver's input.
#[derive(Clone, Copy, Debug, PartialEq, Eq)]
pub enum Line {
    Call(Call),
    /// The bytes of one device.
    Device(Unit, [u8; DEVICE_BYTES]),
    /// Those of both are shown.
    Bytes,
}

fn letter(unit: Unit) -> char {
    match unit {
        Unit::A => 'a',
        Unit::B => 'b',
    }
}

impl fmt::Display for Line {
    fn fmt(&self, f: &mut fmt::Formatter) -> fmt::Result {
        match self {
            Line::Call(Call::Tick) => write!(f, "tick"),
            Line::Call(Call::Run(ticks)) => write!(f, "run {ticks}"),
            Line::Call(Call::Wait(number, limit)) => write!(f, "wait {number} {limit}"),
            Line::Call(Call::On(unit, call)) => write!(f, "{} {call}", letter(*unit)),
            Line::Device(unit, bytes) => {
                write!(f, "{} device {}", letter(*unit), hexadecimal(bytes))
            }
            Line::Bytes => write!(f, "bytes"),
        }
    }
}

/// How a call is made; that of a wrong pair is another than `Pair::call`.
pub type Make = fn(&mut Pair, &Call) -> Answer;

/// The pair of the driver.
#[derive(Clone)]
pub struct Bench {
    pub pair: Pair,
    make: Make,
}

impl Bench {
    pub fn new(make: Make) -> Bench {
        Bench {
            pair: Pair::just_reset(),
            make,
        }
    }
}

impl Entry for Line {
    type Model = Bench;

    fn start() -> Bench {
        Bench::new(Pair::call)
    }

    fn answer(&self, Bench { pair, make }: &mut Bench) -> String {
        match self {
            Line::Call(call) => numbers(&make(pair, call).1),
            Line::Device(unit, bytes) => {
                *pair.end_mut(*unit) = Lent::of_bytes(*bytes);
                "0".to_string()
            }
            Line::Bytes => hexadecimal(&[pair.a.bytes(), pair.b.bytes()].concat()),
        }
    }

    fn is_call(&self) -> bool {
        matches!(self, Line::Call(_))
    }

    fn simpler(&self) -> Vec<Line> {
        match *self {
            Line::Call(Call::Run(ticks)) => {
                let fewer = smaller(ticks).into_iter().map(Call::Run);
                fewer.map(Line::Call).collect()
            }
            Line::Call(Call::Wait(number, limit)) => {
                let lower = smaller(limit).into_iter();
                let lower = lower.map(|limit| Call::Wait(number, limit));
                let others = smaller(number).into_iter();
                let others = others.map(|number| Call::Wait(number, limit));
                lower.chain(others).map(Line::Call).collect()
            }
            Line::Call(Call::On(unit, call)) => {
                let calls = call.simpler().into_iter();
                calls.map(|call| Line::Call(Call::On(unit, call))).collect()
            }
            _ => Vec::new(),
        }
    }
}
