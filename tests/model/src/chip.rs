//! The whole chip, call by call: its registers, its sender, its receiver and
//! its pins.
//!
//! The sender holds the levels that are left of the frame under way, and the
//! receiver the samples of the character under way, so both lean on the frame
//! and the reading of the crate's root. The sections named are those of
//! document 01; P1, P4 and P7 are those requests of document 02, the change requests. `bytes`
//! has the chip as the bytes that a host lends, `view` what an onlooker sees of it.

mod bytes;
mod view;

pub use bytes::{format_bytes, number, set_number};
pub use bytes::{RECEIVE_TALLY, STAMP, START, TRANSMIT_TALLY};
pub use view::View;

use crate::{character_at, frame, Character, Format};
use std::collections::VecDeque;

// "Refusal numbers".
const DONE: u8 = 0;
const NO_SUCH_ADDRESS: u8 = 1;
const NO_SUCH_LEVEL: u8 = 2;
const NO_STOP_LENGTH: u8 = 3;
const SYNCHRONOUS: u8 = 4;
const NOT_NORMAL_OPERATION: u8 = 5;

// The bits of the command ("Registers").
const TRANSMIT: u8 = 1;
const DTR: u8 = 2;
pub const RECEIVE: u8 = 4;
const BREAK: u8 = 8;
pub const RESET_ERROR: u8 = 16;
const RTS: u8 = 32;

// The clock bits of mode 2.
pub const INTERNAL_TRANSMIT_CLOCK: u8 = 32;
pub const INTERNAL_RECEIVE_CLOCK: u8 = 16;

/// Where the receiver stands ("Receiving").
#[derive(Clone, Debug, PartialEq, Eq)]
enum Receiver {
    /// It waits for a 1.
    Waiting,
    /// It has its 1 and searches for a 0.
    Searching,
    /// A character is under way: the samples from its tick 0 on, and the format
    /// as it was at that tick.
    Hearing { format: Format, samples: Vec<bool> },
}

/// One chip. Whole chips are compared by what watches calls, to see whether one of
/// their fields changed, and by no rule.
#[derive(Clone, Debug, PartialEq, Eq)]
pub struct Chip {
    /// Nothing while no mode 1 has been accepted since reset.
    mode1: Option<u8>,
    mode2: u8,
    /// The mode pointer: whether mode 2 is next.
    mode2_next: bool,
    /// SYN1, SYN2 and DLE, and the SYN pointer.
    syn: [u8; 3],
    syn_next: usize,
    /// Bit 4 is always 0 here.
    command: u8,

    /// The character waiting in THR.
    waiting: Option<u8>,
    /// What is left of the frame under way; nothing between frames.
    sending: VecDeque<bool>,
    /// The format and the character of that frame, which are among its bytes.
    begun: Option<(Format, u8)>,
    guard: u32,
    /// Transmit ticks since reset, modulo 2^32, and how many they were behind the first
    /// one of the last frame (P4); so it is 0 while there was none.
    transmit_tally: u32,
    start: u32,

    receiver: Receiver,
    /// The character RHR holds or last held, and whether it is unread.
    held: u8,
    unread: bool,
    /// Receive ticks since reset, modulo 2^32, and how many they were behind that of the
    /// stop sample of the character held (P4).
    receive_tally: u32,
    stamp: u32,

    framing: bool,
    overrun: bool,
    parity: bool,
    empty_mark: bool,
    change_mark: bool,

    dsr: u8,
    dcd: u8,
    cts: u8,
}

/// The format that an accepted mode 1 stands for ("Registers"), in a direction
/// whose clock is internal or not.
pub fn decode(mode1: u8, internal: bool) -> Format {
    let factor = match mode1 & 3 {
        _ if internal => 16,
        1 => 1,
        2 => 16,
        3 => 64,
        _ => unreachable!("a synchronous mode 1 is refused"),
    };
    // Stop lengths 1, 2, 3 are 2, 3, 4 half bits. With a factor of 1 the
    // division leaves one tick of one and a half, as is ruled under "Sending".
    let half_bits = u32::from(mode1 >> 6) + 1;
    Format {
        factor,
        length: 5 + u32::from((mode1 >> 2) & 3),
        parity: mode1 & 16 != 0,
        even: mode1 & 32 != 0,
        stop: factor * half_bits / 2,
    }
}

impl Chip {
    /// A chip just reset ("Registers").
    pub fn just_reset() -> Chip {
        Chip {
            mode1: None,
            mode2: 0,
            mode2_next: false,
            syn: [0; 3],
            syn_next: 0,
            command: 0,
            waiting: None,
            sending: VecDeque::new(),
            begun: None,
            guard: 0,
            transmit_tally: 0,
            start: 0,
            receiver: Receiver::Waiting,
            held: 0,
            unread: false,
            receive_tally: 0,
            stamp: 0,
            framing: false,
            overrun: false,
            parity: false,
            empty_mark: false,
            change_mark: false,
            dsr: 1,
            dcd: 1,
            cts: 1,
        }
    }

    pub fn reset(&mut self) {
        *self = Chip::just_reset();
    }

    /// The refusal and the value read ("Registers").
    pub fn read(&mut self, address: u8) -> (u8, u8) {
        let value = match address {
            0 => {
                self.unread = false;
                self.held
            }
            1 => {
                let before = self.status();
                self.change_mark = false;
                before
            }
            2 => {
                let second = self.mode2_next;
                self.mode2_next = !second;
                if second {
                    self.mode2
                } else {
                    self.mode1.unwrap_or(0)
                }
            }
            3 => {
                self.mode2_next = false;
                self.syn_next = 0;
                self.command
            }
            _ => return (NO_SUCH_ADDRESS, 0),
        };
        (DONE, value)
    }

    /// The refusal ("Registers").
    pub fn write(&mut self, address: u8, value: u8) -> u8 {
        match address {
            0 => {
                self.waiting = Some(value);
                self.empty_mark = false;
                DONE
            }
            1 => {
                self.syn[self.syn_next] = value;
                self.syn_next = (self.syn_next + 1) % 3;
                DONE
            }
            2 if self.mode2_next => {
                self.mode2 = value;
                self.mode2_next = false;
                DONE
            }
            2 if value & 3 == 0 => SYNCHRONOUS,
            2 if value >> 6 == 0 => NO_STOP_LENGTH,
            2 => {
                self.mode1 = Some(value);
                self.mode2_next = true;
                DONE
            }
            3 if value >> 6 != 0 => NOT_NORMAL_OPERATION,
            3 => {
                self.take_command(value);
                DONE
            }
            _ => NO_SUCH_ADDRESS,
        }
    }

    fn take_command(&mut self, value: u8) {
        self.command = value & !RESET_ERROR;
        // Receive off clears the flags as reset error does: P1, which mends
        // "Registers".
        if value & RESET_ERROR != 0 || !self.commanded(RECEIVE) {
            self.framing = false;
            self.overrun = false;
            self.parity = false;
        }
        if !self.commanded(TRANSMIT) {
            self.empty_mark = false;
        }
        if !self.commanded(RECEIVE) {
            // `held` stays: an empty RHR gives it again.
            self.unread = false;
            self.receiver = Receiver::Waiting;
        }
    }

    /// The refusal of new levels at the three inputs.
    pub fn set_pins(&mut self, dsr: u8, dcd: u8, cts: u8) -> u8 {
        if [dsr, dcd, cts].iter().any(|&level| level > 1) {
            return NO_SUCH_LEVEL;
        }
        if (dsr, dcd) != (self.dsr, self.dcd) {
            self.change_mark = true;
        }
        (self.dsr, self.dcd, self.cts) = (dsr, dcd, cts);
        DONE
    }

    /// The level that a transmit tick sends ("Sending").
    pub fn transmit(&mut self) -> u8 {
        // P4: every tick counts, whatever it does.
        self.transmit_tally = self.transmit_tally.wrapping_add(1);
        if self.sending.is_empty() && self.commanded(TRANSMIT) && self.cts == 0 {
            if let Some(format) = self.format(INTERNAL_TRANSMIT_CLOCK) {
                if self.commanded(BREAK) {
                    self.guard = format.factor;
                    return 0;
                }
                if self.guard == 0 {
                    if let Some(character) = self.waiting.take() {
                        self.sending = frame(&format, character).into();
                        self.begun = Some((format, character));
                        self.start = self.transmit_tally;
                    }
                }
            }
        }
        match self.sending.pop_front() {
            Some(level) => {
                let ended = self.sending.is_empty();
                if ended {
                    self.begun = None;
                }
                if ended && self.waiting.is_none() && self.commanded(TRANSMIT) {
                    self.empty_mark = true;
                }
                u8::from(level)
            }
            None => {
                self.guard = self.guard.saturating_sub(1);
                1
            }
        }
    }

    /// The refusal of a receive tick with the line at `level` ("Receiving").
    pub fn receive(&mut self, level: u8) -> u8 {
        if level > 1 {
            return NO_SUCH_LEVEL;
        }
        // P4: a tick that is done counts, though nothing may be heard.
        self.receive_tally = self.receive_tally.wrapping_add(1);
        let level = level == 1;
        let Some(now) = self.heard_format() else {
            self.receiver = Receiver::Waiting;
            return DONE;
        };
        match &mut self.receiver {
            Receiver::Waiting if level => self.receiver = Receiver::Searching,
            Receiver::Searching if !level => {
                self.receiver = Receiver::Hearing {
                    format: now,
                    samples: vec![level],
                }
            }
            Receiver::Waiting | Receiver::Searching => {}
            Receiver::Hearing { format, samples } => {
                samples.push(level);
                if samples.get(format.half() as usize) == Some(&true) {
                    // A false start; its 1 is the mark for a new search. With a
                    // factor of 1 this is the sample of tick 0, which is a 0.
                    self.receiver = Receiver::Searching;
                } else if samples.get(format.stop_sample() as usize).is_some() {
                    let character = character_at(format, samples, 0);
                    self.arrive(character);
                }
            }
        }
        DONE
    }

    /// Both ticks of a chip as a host's loop does them: a receive tick with the
    /// line at `level`, then a transmit tick. The refusal and the level sent; a
    /// refused one does neither.
    pub fn tick(&mut self, level: u8) -> (u8, u8) {
        match self.receive(level) {
            DONE => (DONE, self.transmit()),
            refusal => (refusal, 0),
        }
    }

    /// What happens at D ("Receiving").
    fn arrive(&mut self, character: Character) {
        self.overrun |= self.unread;
        self.parity |= character.parity;
        self.framing |= character.framing;
        self.held = character.value;
        self.unread = true;
        self.stamp = self.receive_tally;
        self.receiver = if character.framing {
            Receiver::Waiting
        } else {
            Receiver::Searching
        };
    }

    /// The levels of TxRDY, RxRDY, TxEMT/DSCHG, DTR and RTS ("Registers").
    pub fn outputs(&self) -> [u8; 5] {
        let status = self.status();
        [
            status & 1,
            status & 2,
            status & 4,
            self.command & DTR,
            self.command & RTS,
        ]
        .map(|bit| u8::from(bit == 0))
    }

    /// The status as a debugger looks at it: the change-mark stays.
    pub fn peek(&self) -> u8 {
        self.status()
    }

    /// Status bit 1 as a read would show it: RHR holds an unread character.
    pub fn holds_unread(&self) -> bool {
        self.status() & 2 != 0
    }

    /// The stamp of the character that a read of address 0 gives (P4).
    pub fn stamp(&self) -> u32 {
        self.stamp
    }

    /// The stamp of the last frame's first tick.
    pub fn start(&self) -> u32 {
        self.start
    }

    pub fn transmit_tally(&self) -> u32 {
        self.transmit_tally
    }

    pub fn receive_tally(&self) -> u32 {
        self.receive_tally
    }

    /// The chip with its tallies at 0, for those who look for what else a tick moves.
    pub fn untallied(&self) -> Chip {
        Chip {
            transmit_tally: 0,
            receive_tally: 0,
            ..self.clone()
        }
    }

    /// SYN1, SYN2 and DLE, which no call of the chip itself reads.
    pub fn syn(&self) -> [u8; 3] {
        self.syn
    }

    fn status(&self) -> u8 {
        let bits = [
            self.commanded(TRANSMIT) && self.waiting.is_none(),
            self.unread,
            self.empty_mark || self.change_mark,
            self.parity,
            self.overrun,
            self.framing,
            self.dcd == 0,
            self.dsr == 0,
        ];
        // Lowest bit first.
        bits.iter()
            .rev()
            .fold(0, |sum, &bit| 2 * sum + u8::from(bit))
    }

    pub fn view(&self) -> View {
        View {
            mode1: self.mode1,
            mode2: self.mode2,
            command: self.command,
            pins: [self.dsr, self.dcd, self.cts],
            status: self.status(),
            empty_mark: self.empty_mark,
            change_mark: self.change_mark,
            waiting: self.waiting.is_some(),
            sending: !self.sending.is_empty(),
            guard: self.guard,
            transmit_tally: self.transmit_tally,
            start: self.start,
            receive_tally: self.receive_tally,
            stamp: self.stamp,
            frame: self.begun.map(|(format, _)| {
                let length = format.frame_length() as usize;
                (format, length - self.sending.len())
            }),
            waits: self.receiver == Receiver::Waiting,
            listening: self.heard_format().is_some(),
            hearing: match &self.receiver {
                Receiver::Hearing { format, samples } => Some((*format, samples.len())),
                Receiver::Waiting | Receiver::Searching => None,
            },
        }
    }

    /// The format of a character that would begin now, if the receiver listens:
    /// receive on, DCD low and mode 1 accepted ("Receiving").
    fn heard_format(&self) -> Option<Format> {
        let on = self.commanded(RECEIVE) && self.dcd == 0;
        self.format(INTERNAL_RECEIVE_CLOCK).filter(|_| on)
    }

    fn commanded(&self, bit: u8) -> bool {
        self.command & bit != 0
    }

    /// The format of the direction whose clock bit in mode 2 is given, if mode 1
    /// has been accepted.
    fn format(&self, clock: u8) -> Option<Format> {
        let internal = self.mode2 & clock != 0;
        self.mode1.map(|mode1| decode(mode1, internal))
    }
}

/// A chip just reset, then given both modes and a command, with all pins low.
pub fn set_up(mode1: u8, mode2: u8, command: u8) -> Chip {
    let mut chip = Chip::just_reset();
    let refusals = [
        chip.write(2, mode1),
        chip.write(2, mode2),
        chip.write(3, command),
        chip.set_pins(0, 0, 0),
    ];
    assert_eq!(refusals, [DONE; 4]);
    chip
}

/// A joined tick of two chips: both transmit ticks, then each receiver takes the
/// other's level ("Receiving"). The levels that they sent.
pub fn joined_tick(a: &mut Chip, b: &mut Chip) -> [u8; 2] {
    let (from_a, from_b) = (a.transmit(), b.transmit());
    a.receive(from_b);
    b.receive(from_a);
    [from_a, from_b]
}

pub fn joined_ticks(a: &mut Chip, b: &mut Chip, count: u32) {
    for _ in 0..count {
        joined_tick(a, b);
    }
}
