//! The registers and pins of one side, and the frames that it sends with them.

use crate::session::Record;

// The bits of the command ("Registers").
pub const TRANSMIT: u8 = 1;
pub const RECEIVE: u8 = 4;
pub const BREAK: u8 = 8;
pub const RESET_ERROR: u8 = 16;

// The clock bits of mode 2.
pub const TRANSMIT_CLOCK: u8 = 32;
pub const RECEIVE_CLOCK: u8 = 16;

/// The bits of mode 1 that both ends must share: length, parity on or off, and
/// its kind, which says nothing where parity is off.
pub const LENGTH: u8 = 12;
pub const PARITY: u8 = 16;
pub const EVEN: u8 = 32;

#[derive(Clone, Copy, Debug, PartialEq, Eq)]
pub struct Side {
    /// 0 while none has been accepted since reset: no mode 1 that is accepted is 0.
    pub mode1: u8,
    pub mode2: u8,
    /// The mode pointer: whether mode 2 is next.
    pub mode2_next: bool,
    /// Bit 4 is always 0 here.
    pub command: u8,
    /// DSR, DCD and CTS.
    pub pins: [u8; 3],
}

/// What is sent: L, D and the highest character.
#[derive(Clone, Copy, Debug)]
pub struct Frames {
    pub length: u32,
    pub stop_sample: u32,
    pub highest: u8,
}

impl Side {
    pub const RESET: Side = Side {
        mode1: 0,
        mode2: 0,
        mode2_next: false,
        command: 0,
        pins: [1; 3],
    };

    /// The number that a call of this side is refused with; 0 is done ("Refusal
    /// numbers").
    pub fn refusal(&self, record: Record) -> u8 {
        match record {
            Record::Write(_, 4.., _) | Record::Read(_, 4..) => 1,
            Record::Pins(_, levels) if levels.iter().any(|&level| level > 1) => 2,
            Record::Write(_, 2, value) if !self.mode2_next && value & 3 == 0 => 4,
            Record::Write(_, 2, 0..=63) if !self.mode2_next => 3,
            Record::Write(_, 3, 64..) => 5,
            _ => 0,
        }
    }

    /// A call of this side that is done.
    pub fn take(&mut self, record: Record) {
        match record {
            Record::Write(_, 2, value) => {
                if self.mode2_next {
                    self.mode2 = value;
                } else {
                    self.mode1 = value;
                }
                self.mode2_next = !self.mode2_next;
            }
            Record::Read(_, 2) => self.mode2_next = !self.mode2_next,
            Record::Write(_, 3, value) => self.command = value & !RESET_ERROR,
            Record::Read(_, 3) => self.mode2_next = false,
            Record::Pins(_, levels) => self.pins = levels,
            Record::Reset(_) => *self = Side::RESET,
            _ => {}
        }
    }

    /// The bits of a read that the registers and pins alone tell, and what they
    /// must be.
    pub fn shows(&self, record: Record) -> (u8, u8) {
        let low = |pin: usize| 1 - self.pins[pin];
        match record {
            Record::Read(_, 1) => (128 + 64, 128 * low(0) + 64 * low(1)),
            Record::Read(_, 2) if self.mode2_next => (255, self.mode2),
            Record::Read(_, 2) => (255, self.mode1),
            Record::Read(_, 3) => (255, self.command),
            _ => (0, 0),
        }
    }

    /// F in the direction whose clock bit is given, where mode 1 is set.
    pub fn factor(&self, clock: u8) -> u32 {
        match self.mode1 & 3 {
            _ if self.mode2 & clock != 0 => 16,
            1 => 1,
            2 => 16,
            _ => 64,
        }
    }

    /// "Sending" and "Receiving", by mode 1 and the transmit clock.
    pub fn frames(&self) -> Frames {
        let factor = self.factor(TRANSMIT_CLOCK);
        let length = 5 + u32::from(self.mode1 & LENGTH) / 4;
        let parity = u32::from(self.mode1 & PARITY != 0);
        // Stops of 1, 2, 3 are 2, 3, 4 half bits; 1½ of one tick counts as one.
        let stop = factor * (u32::from(self.mode1 >> 6) + 1) / 2;
        Frames {
            length: factor * (1 + length + parity) + stop,
            stop_sample: factor / 2 + factor * (length + parity + 1),
            highest: ((1 << length) - 1) as u8,
        }
    }

    fn may_start(&self) -> bool {
        self.mode1 != 0 && self.command & (TRANSMIT + BREAK) == TRANSMIT && self.pins[2] == 0
    }

    fn listens(&self) -> bool {
        self.mode1 != 0 && self.command & RECEIVE != 0 && self.pins[1] == 0
    }

    /// Whether the way to `there` is open: this side may start a frame, the other
    /// one listens, and both have one format but for the stop length, which is
    /// the sender's own.
    pub fn is_open_to(&self, there: &Side) -> bool {
        let kind = if self.mode1 & PARITY != 0 { EVEN } else { 0 };
        let unequal = (self.mode1 ^ there.mode1) & (LENGTH + PARITY + kind);
        let factors = (self.factor(TRANSMIT_CLOCK), there.factor(RECEIVE_CLOCK));
        self.may_start() && there.listens() && unequal == 0 && factors.0 == factors.1
    }
}
