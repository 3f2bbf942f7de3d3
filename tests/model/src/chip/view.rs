//! What an onlooker sees of a chip, for those who count what was reached; no rule rests
//! on it.

use super::{decode, BREAK, INTERNAL_RECEIVE_CLOCK, INTERNAL_TRANSMIT_CLOCK, RECEIVE, TRANSMIT};
use crate::Format;

/// A chip between two calls.
#[derive(Clone, Copy, Debug)]
pub struct View {
    pub mode1: Option<u8>,
    pub mode2: u8,
    pub command: u8,
    pub pins: [u8; 3],
    pub status: u8,
    pub empty_mark: bool,
    pub change_mark: bool,
    /// Whether THR is full, whether a frame is under way, and the guard.
    pub waiting: bool,
    pub sending: bool,
    pub guard: u32,
    /// The tallies of both clocks, and what was stamped by each.
    pub transmit_tally: u32,
    pub start: u32,
    pub receive_tally: u32,
    pub stamp: u32,
    /// The frame under way: its format, and its ticks so far.
    pub frame: Option<(Format, usize)>,
    /// Receive on, DCD low and mode 1 accepted: a receive tick is heard.
    pub listening: bool,
    /// The receiver waits for a 1.
    pub waits: bool,
    /// The character under way: its format, and its samples so far.
    pub hearing: Option<(Format, usize)>,
}

impl View {
    pub fn transmit_off(&self) -> bool {
        self.command & TRANSMIT == 0
    }

    pub fn receive_off(&self) -> bool {
        self.command & RECEIVE == 0
    }

    pub fn break_on(&self) -> bool {
        self.command & BREAK != 0
    }

    pub fn dcd_high(&self) -> bool {
        self.pins[1] == 1
    }

    pub fn cts_high(&self) -> bool {
        self.pins[2] == 1
    }

    pub fn no_mode(&self) -> bool {
        self.mode1.is_none()
    }

    /// The next tick is one of a break.
    pub fn in_break(&self) -> bool {
        self.may_begin() && self.break_on()
    }

    /// The next tick begins a frame.
    pub fn starts_now(&self) -> bool {
        self.may_begin() && !self.break_on() && self.guard == 0 && self.waiting
    }

    /// Nothing but mark is sent until it is called.
    pub fn at_mark(&self) -> bool {
        !self.sending && !(self.may_begin() && (self.break_on() || self.waiting))
    }

    /// No frame is under way, and nothing is in the way of one.
    fn may_begin(&self) -> bool {
        let off = self.transmit_off() || self.cts_high() || self.no_mode();
        !self.sending && !off
    }

    /// The format in which it would send now, where there is a mode.
    pub fn sends(&self) -> Option<Format> {
        self.format(INTERNAL_TRANSMIT_CLOCK)
    }

    /// The format in which it would hear now.
    pub fn hears(&self) -> Option<Format> {
        self.format(INTERNAL_RECEIVE_CLOCK)
    }

    fn format(&self, clock: u8) -> Option<Format> {
        let internal = self.mode2 & clock != 0;
        self.mode1.map(|mode1| decode(mode1, internal))
    }
}
