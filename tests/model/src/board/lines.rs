//! The text of the board's C driver: two boards, each with a room of nine devices,
//! a call on each line and one line for its answer. Further lines say which board
//! is called and with how many channels, and set and show boards and devices.

use super::{Answer, Board, Call, CHANNELS};
use crate::calls::{hexadecimal, numbers, Lent, DEVICE_BYTES};
use crate::chip::Chip;
use crate::driver::Entry;
use crate::shorten::{smaller_bytes, smaller_levels};
use std::fmt;

/// The devices of a room: one more than a board has channels.
pub const PLACES: usize = CHANNELS + 1;

/// A line of the driver's input.
#[derive(Clone, Copy, Debug, PartialEq, Eq)]
pub enum Line {
    /// The board that the lines behind it are about.
    Use(usize),
    /// The channels that its calls are lent.
    Count(usize),
    /// The fields of the board.
    Set(Board),
    Fields,
    /// The bytes of a device of the room.
    Device(usize, [u8; DEVICE_BYTES]),
    Bytes(usize),
    Call(Call),
}

impl fmt::Display for Line {
    fn fmt(&self, f: &mut fmt::Formatter) -> fmt::Result {
        match self {
            Line::Use(board) => write!(f, "use {board}"),
            Line::Count(channels) => write!(f, "count {channels}"),
            Line::Set(board) => write!(f, "board {}", numbers(&fields(board))),
            Line::Fields => write!(f, "fields"),
            Line::Device(place, bytes) => write!(f, "device {place} {}", hexadecimal(bytes)),
            Line::Bytes(place) => write!(f, "bytes {place}"),
            Line::Call(call) => {
                write!(f, "{}", call.name())?;
                match *call {
                    Call::In(number) | Call::Transmit(number) | Call::Outputs(number) => {
                        write!(f, " {number}")
                    }
                    Call::Out(port, value) => write!(f, " {port} {value}"),
                    Call::Receive(channel, level) => write!(f, " {channel} {level}"),
                    Call::Pins(channel, levels) => write!(f, " {channel} {}", numbers(&levels)),
                    Call::Reset | Call::Interrupts => Ok(()),
                }
            }
        }
    }
}

fn fields(board: &Board) -> [u8; 4] {
    [
        board.number,
        board.select,
        board.transmit_mask,
        board.receive_mask,
    ]
}

/// One board of the driver.
#[derive(Clone, Debug, PartialEq, Eq)]
pub struct Side {
    pub board: Board,
    pub room: Vec<Lent>,
    /// The channels that are lent.
    pub count: usize,
}

impl Side {
    fn numbered(number: u8) -> Side {
        Side {
            board: Board::numbered(number),
            room: vec![Lent::InRange(Chip::just_reset()); PLACES],
            count: CHANNELS,
        }
    }

    pub fn call(&mut self, call: &Call) -> Answer {
        self.board.call(&mut self.room[..self.count], call)
    }

    /// The eight channels, whatever is lent.
    pub fn channels(&self) -> &[Lent] {
        &self.room[..CHANNELS]
    }
}

/// How a call is made; that of a wrong board is another than `Side::call`.
pub type Make = fn(&mut Side, &Call) -> Answer;

/// The boards of the driver.
#[derive(Clone)]
pub struct Bench {
    pub sides: [Side; 2],
    /// The board that is called.
    pub used: usize,
    make: Make,
}

impl Bench {
    pub fn new(make: Make) -> Bench {
        Bench {
            sides: [Side::numbered(0), Side::numbered(1)],
            used: 0,
            make,
        }
    }

    pub fn side(&self) -> &Side {
        &self.sides[self.used]
    }

    pub fn call(&mut self, call: &Call) -> Answer {
        (self.make)(&mut self.sides[self.used], call)
    }

    /// What a line answers.
    pub fn answer(&mut self, line: &Line) -> String {
        let side = &mut self.sides[self.used];
        match *line {
            Line::Use(board) => self.used = board,
            Line::Count(channels) => side.count = channels,
            Line::Set(board) => side.board = board,
            Line::Device(place, bytes) => side.room[place] = Lent::of_bytes(bytes),
            Line::Fields => return numbers(&fields(&side.board)),
            Line::Bytes(place) => return hexadecimal(&side.room[place].bytes()),
            Line::Call(call) => {
                let (refusal, values) = self.call(&call);
                return numbers(&[vec![refusal], values].concat());
            }
        }
        "0".to_string()
    }
}

impl Entry for Line {
    type Model = Bench;

    fn start() -> Bench {
        Bench::new(Side::call)
    }

    fn answer(&self, bench: &mut Bench) -> String {
        bench.answer(self)
    }

    fn is_call(&self) -> bool {
        matches!(self, Line::Call(_))
    }

    fn simpler(&self) -> Vec<Line> {
        match *self {
            Line::Call(call) => simpler_calls(call).into_iter().map(Line::Call).collect(),
            Line::Set(board) => simpler_boards(board),
            _ => Vec::new(),
        }
    }
}

fn simpler_calls(call: Call) -> Vec<Call> {
    match call {
        Call::In(port) => smaller_bytes(port).map(Call::In).collect(),
        Call::Transmit(channel) => smaller_bytes(channel).map(Call::Transmit).collect(),
        Call::Outputs(channel) => smaller_bytes(channel).map(Call::Outputs).collect(),
        Call::Out(port, value) => {
            let ports = smaller_bytes(port).map(|port| Call::Out(port, value));
            let values = smaller_bytes(value).map(|value| Call::Out(port, value));
            ports.chain(values).collect()
        }
        Call::Receive(channel, level) => {
            let channels = smaller_bytes(channel).map(|channel| Call::Receive(channel, level));
            let levels = smaller_bytes(level).map(|level| Call::Receive(channel, level));
            channels.chain(levels).collect()
        }
        Call::Pins(channel, levels) => {
            let channels = smaller_bytes(channel).map(|channel| Call::Pins(channel, levels));
            let levels = smaller_levels(levels).map(|levels| Call::Pins(channel, levels));
            channels.chain(levels).collect()
        }
        Call::Reset | Call::Interrupts => Vec::new(),
    }
}

fn simpler_boards(board: Board) -> Vec<Line> {
    let numbers = smaller_bytes(board.number).map(|number| Board { number, ..board });
    let selects = smaller_bytes(board.select).map(|select| Board { select, ..board });
    let transmits = smaller_bytes(board.transmit_mask).map(|transmit_mask| Board {
        transmit_mask,
        ..board
    });
    let receives = smaller_bytes(board.receive_mask).map(|receive_mask| Board {
        receive_mask,
        ..board
    });
    let all = numbers.chain(selects).chain(transmits).chain(receives);
    all.map(Line::Set).collect()
}
