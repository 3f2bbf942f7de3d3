//! The Interfacer 3: eight chips on one board, call by call, over the room that a
//! host lends (P2 of the change requests, and the interrupt pages of document 000,
//! which is the board's manual).
//!
//! `lines` is the text of the board's C driver, `reach` what random runs reached.

pub mod lines;
pub mod reach;

use crate::calls::{Call as ChipCall, Lent};

/// The channels of a board.
pub const CHANNELS: usize = 8;

// P2's refusals, in their order; a channel's own comes behind them.
pub const WRONG_ROOM: u8 = 10;
pub const NO_SUCH_PORT: u8 = 8;
pub const NOT_SELECTED: u8 = 9;

// The status bits that are a channel's interrupts.
const TRANSMIT_READY: u8 = 1;
const RECEIVE_READY: u8 = 2;

/// The board's own state; any number may stand in any field.
#[derive(Clone, Copy, Debug, PartialEq, Eq)]
pub struct Board {
    pub number: u8,
    pub select: u8,
    pub transmit_mask: u8,
    pub receive_mask: u8,
}

/// The refusal, and the values: the byte read, the level sent, the levels of the
/// outputs, the interrupts of both kinds, or one that is always 0. All are 0 where the
/// call is refused.
pub type Answer = (u8, Vec<u8>);

/// The values of a call that has nothing to tell.
const NO_VALUE: [u8; 1] = [0];

#[derive(Clone, Copy, Debug, PartialEq, Eq)]
pub enum Call {
    /// A read of a port.
    In(u8),
    /// A write of a port, and its value.
    Out(u8, u8),
    Reset,
    /// A channel, then the levels of DSR, DCD and CTS.
    Pins(u8, [u8; 3]),
    Transmit(u8),
    /// A channel, then the level of its line.
    Receive(u8, u8),
    Outputs(u8),
    Interrupts,
}

impl Call {
    pub const NAMES: [&'static str; 8] = [
        "in",
        "out",
        "reset",
        "pins",
        "transmit",
        "receive",
        "outputs",
        "interrupts",
    ];

    pub fn name(&self) -> &'static str {
        let place = match self {
            Call::In(_) => 0,
            Call::Out(..) => 1,
            Call::Reset => 2,
            Call::Pins(..) => 3,
            Call::Transmit(_) => 4,
            Call::Receive(..) => 5,
            Call::Outputs(_) => 6,
            Call::Interrupts => 7,
        };
        Call::NAMES[place]
    }

    /// What it answers where it is refused.
    pub fn refused(&self, refusal: u8) -> Answer {
        let values = match self {
            Call::Outputs(_) => 5,
            Call::Interrupts => 2,
            _ => 1,
        };
        (refusal, vec![0; values])
    }
}

impl Board {
    /// A board just reset.
    pub fn numbered(number: u8) -> Board {
        Board {
            number,
            select: 0,
            transmit_mask: 0,
            receive_mask: 0,
        }
    }

    /// Bits 4-3 of the select are the board, and no board above 3 is ever selected.
    pub fn is_selected(&self) -> bool {
        self.number <= 3 && self.select / 8 % 4 == self.number
    }

    /// The channel of a select: its bits 2-0.
    pub fn selected(&self) -> u8 {
        self.select % 8
    }

    pub fn call(&mut self, room: &mut [Lent], call: &Call) -> Answer {
        let answer = if room.len() == CHANNELS {
            self.done(room, call)
        } else {
            Err(WRONG_ROOM)
        };
        match answer {
            Ok(values) => (0, values),
            Err(refusal) => call.refused(refusal),
        }
    }

    /// A call with a room of eight.
    fn done(&mut self, room: &mut [Lent], call: &Call) -> Result<Vec<u8>, u8> {
        match *call {
            Call::In(port) => self.read(room, port),
            Call::Out(port, value) => self.write(room, port, value),
            Call::Reset => {
                *self = Board::numbered(self.number);
                room.iter_mut()
                    .for_each(|lent| drop(lent.call(&ChipCall::Reset)));
                Ok(NO_VALUE.to_vec())
            }
            Call::Pins(channel, levels) => on_channel(room, channel, ChipCall::Pins(levels)),
            Call::Transmit(channel) => on_channel(room, channel, ChipCall::Transmit),
            Call::Receive(channel, level) => on_channel(room, channel, ChipCall::Receive(level)),
            Call::Outputs(channel) => on_channel(room, channel, ChipCall::Outputs),
            Call::Interrupts => Ok(vec![
                pending(room, RECEIVE_READY) & self.receive_mask,
                pending(room, TRANSMIT_READY) & self.transmit_mask,
            ]),
        }
    }

    fn read(&mut self, room: &mut [Lent], port: u8) -> Result<Vec<u8>, u8> {
        match port {
            6.. => Err(NO_SUCH_PORT),
            _ if !self.is_selected() => Err(NOT_SELECTED),
            0..=3 => on_channel(room, self.selected(), ChipCall::Read(port)),
            4 => Ok(vec![pending(room, TRANSMIT_READY)]),
            5 => Ok(vec![pending(room, RECEIVE_READY)]),
        }
    }

    fn write(&mut self, room: &mut [Lent], port: u8, value: u8) -> Result<Vec<u8>, u8> {
        match port {
            6 | 8.. => return Err(NO_SUCH_PORT),
            // Every board takes it; bits 7-5 are dropped.
            7 => self.select = value % 32,
            _ if !self.is_selected() => return Err(NOT_SELECTED),
            0..=3 => return on_channel(room, self.selected(), ChipCall::Write(port, value)),
            4 => self.transmit_mask = value,
            5 => self.receive_mask = value,
        }
        Ok(NO_VALUE.to_vec())
    }
}

/// A chip's call on a channel: what it answers beside its refusal.
fn on_channel(room: &mut [Lent], channel: u8, call: ChipCall) -> Result<Vec<u8>, u8> {
    let lent = room.get_mut(usize::from(channel)).ok_or(NO_SUCH_PORT)?;
    let (refusal, answer) = lent.call(&call);
    let bytes = |numbers: &[u32]| numbers.iter().map(|&number| number as u8).collect();
    match call {
        _ if refusal != 0 => Err(refusal),
        ChipCall::Read(_) => Ok(bytes(&answer[1..])),
        ChipCall::Transmit | ChipCall::Outputs => Ok(bytes(&answer)),
        _ => Ok(NO_VALUE.to_vec()),
    }
}

/// The channels of which a fact holds, channel k as bit k.
pub fn channels_that(room: &[Lent], fact: impl Fn(&Lent) -> bool) -> u8 {
    let channels = room.iter().rev();
    channels.fold(0, |sum, lent| 2 * sum + u8::from(fact(lent)))
}

/// The channels whose status has a bit. A channel out of range is as one just reset.
pub fn pending(room: &[Lent], bit: u8) -> u8 {
    channels_that(room, |lent| lent.view().status & bit != 0)
}
