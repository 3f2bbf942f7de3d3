//! One chip, ticked in place: counters and shift registers, no lists, no allocation.

// The bits of the command and of mode 2 ("Registers").
const TRANSMIT: u8 = 1;
const RECEIVE: u8 = 4;
const BREAK: u8 = 8;
const RESET_ERROR: u8 = 16;
const INTERNAL_TRANSMIT_CLOCK: u8 = 32;
const INTERNAL_RECEIVE_CLOCK: u8 = 16;

/// How a direction sends or takes a character.
#[derive(Clone, Copy)]
struct Format {
    factor: u8,
    length: u8,
    parity: bool,
    even: bool,
    /// In ticks.
    stop: u8,
}

impl Format {
    fn decode(mode1: u8, internal: bool) -> Format {
        let factor = match mode1 & 3 {
            _ if internal => 16,
            1 => 1,
            2 => 16,
            _ => 64,
        };
        let stop = match mode1 >> 6 {
            1 => factor,
            2 => 3 * factor / 2,
            _ => 2 * factor,
        };
        Format {
            factor,
            length: 5 + (mode1 >> 2 & 3),
            parity: mode1 & 16 != 0,
            even: mode1 & 32 != 0,
            stop,
        }
    }

    /// The parity level that goes with `data`.
    fn parity_of(&self, data: u8) -> bool {
        (data.count_ones() & 1 == 1) == self.even
    }
}

/// The frame under way as a shift register: its next bits, lowest first, without the stop.
#[derive(Clone, Copy, Default)]
struct Frame {
    bits: u16,
    /// Bits left before the stop, the one being sent included.
    left: u8,
    /// Ticks left of the bit, or of the stop where no bit is left; 0: no frame.
    ticks: u8,
    factor: u8,
    stop: u8,
}

impl Frame {
    fn begin(format: &Format, character: u8) -> Frame {
        let data = character & (0xff >> (8 - format.length));
        let mut bits = u16::from(data) << 1;
        let mut left = 1 + format.length;
        if format.parity {
            bits |= u16::from(format.parity_of(data)) << left;
            left += 1;
        }
        Frame {
            bits,
            left,
            ticks: format.factor,
            factor: format.factor,
            stop: format.stop,
        }
    }

    /// The level of this tick; after the last one `ticks` is 0.
    fn tick(&mut self) -> bool {
        let level = self.left == 0 || self.bits & 1 == 1;
        self.ticks -= 1;
        if self.ticks == 0 && self.left > 0 {
            self.bits >>= 1;
            self.left -= 1;
            self.ticks = if self.left == 0 {
                self.stop
            } else {
                self.factor
            };
        }
        level
    }
}

#[derive(Clone, Copy, PartialEq)]
enum Phase {
    /// For a 1.
    Waiting,
    /// For a 0.
    Searching,
    /// A character is under way.
    Hearing,
}

/// The receiver; the fields below `phase` are those of the character under way.
#[derive(Clone, Copy)]
struct Receiver {
    phase: Phase,
    /// Ticks before the next look.
    countdown: u8,
    /// The number of that look: 0 at the start, then the data, the parity and the stop.
    look: u8,
    value: u8,
    wrong: bool,
    format: Format,
}

pub struct Chip {
    mode1: u8,
    mode2: u8,
    /// Whether a mode 1 was accepted since reset.
    mode_set: bool,
    mode2_next: bool,
    syn: [u8; 3],
    syn_next: u8,
    command: u8,
    // what the registers stand for, kept at hand
    sending: Format,
    receiving: Format,

    waiting: u8,
    full: bool,
    frame: Frame,
    guard: u8,
    /// Transmit ticks since reset.
    transmit_tally: u32,
    /// That tally after the first tick of the last frame.
    frame_start: u32,

    receiver: Receiver,
    held: u8,
    unread: bool,
    /// Receive ticks since reset.
    receive_tally: u32,
    /// That tally after the stop sample of the held character.
    stamp: u32,

    framing: bool,
    overrun: bool,
    parity: bool,
    empty_mark: bool,
    change_mark: bool,

    dsr: bool,
    dcd: bool,
    cts: bool,
}

impl Chip {
    pub fn just_reset() -> Chip {
        let format = Format::decode(0, false);
        Chip {
            mode1: 0,
            mode2: 0,
            mode_set: false,
            mode2_next: false,
            syn: [0; 3],
            syn_next: 0,
            command: 0,
            sending: format,
            receiving: format,
            waiting: 0,
            full: false,
            frame: Frame::default(),
            guard: 0,
            transmit_tally: 0,
            frame_start: 0,
            receiver: Receiver {
                phase: Phase::Waiting,
                countdown: 0,
                look: 0,
                value: 0,
                wrong: false,
                format,
            },
            held: 0,
            unread: false,
            receive_tally: 0,
            stamp: 0,
            framing: false,
            overrun: false,
            parity: false,
            empty_mark: false,
            change_mark: false,
            dsr: true,
            dcd: true,
            cts: true,
        }
    }

    pub fn reset(&mut self) {
        *self = Chip::just_reset();
    }

    /// The value, or the refusal.
    pub fn read(&mut self, address: u8) -> Result<u8, u8> {
        match address {
            0 => {
                self.unread = false;
                Ok(self.held)
            }
            1 => {
                let value = self.status();
                self.change_mark = false;
                Ok(value)
            }
            2 => {
                self.mode2_next = !self.mode2_next;
                Ok(if self.mode2_next {
                    self.mode1
                } else {
                    self.mode2
                })
            }
            3 => {
                self.mode2_next = false;
                self.syn_next = 0;
                Ok(self.command)
            }
            _ => Err(1),
        }
    }

    /// Done, or the refusal.
    pub fn write(&mut self, address: u8, value: u8) -> Result<(), u8> {
        match address {
            0 => {
                self.waiting = value;
                self.full = true;
                self.empty_mark = false;
            }
            1 => {
                self.syn[usize::from(self.syn_next)] = value;
                self.syn_next = (self.syn_next + 1) % 3;
            }
            2 => return self.write_mode(value),
            3 if value >= 64 => return Err(5),
            3 => self.write_command(value),
            _ => return Err(1),
        }
        Ok(())
    }

    fn write_mode(&mut self, value: u8) -> Result<(), u8> {
        if self.mode2_next {
            self.mode2 = value;
        } else if value & 3 == 0 {
            return Err(4);
        } else if value >> 6 == 0 {
            return Err(3);
        } else {
            self.mode1 = value;
            self.mode_set = true;
        }
        self.mode2_next = !self.mode2_next;
        self.sending = Format::decode(self.mode1, self.mode2 & INTERNAL_TRANSMIT_CLOCK != 0);
        self.receiving = Format::decode(self.mode1, self.mode2 & INTERNAL_RECEIVE_CLOCK != 0);
        Ok(())
    }

    fn write_command(&mut self, value: u8) {
        self.command = value & !RESET_ERROR;
        // Receive off clears the flags as well: P1.
        if value & RESET_ERROR != 0 || value & RECEIVE == 0 {
            self.framing = false;
            self.overrun = false;
            self.parity = false;
        }
        if value & TRANSMIT == 0 {
            self.empty_mark = false;
        }
        if value & RECEIVE == 0 {
            self.unread = false;
            self.receiver.phase = Phase::Waiting;
        }
    }

    /// Done, or the refusal.
    pub fn set_pins(&mut self, dsr: u8, dcd: u8, cts: u8) -> Result<(), u8> {
        if dsr > 1 || dcd > 1 || cts > 1 {
            return Err(2);
        }
        let (dsr, dcd, cts) = (dsr == 1, dcd == 1, cts == 1);
        self.change_mark |= dsr != self.dsr || dcd != self.dcd;
        (self.dsr, self.dcd, self.cts) = (dsr, dcd, cts);
        Ok(())
    }

    /// The level that a transmit tick sends ("Sending").
    #[inline(always)]
    pub fn transmit(&mut self) -> bool {
        self.transmit_tally = self.transmit_tally.wrapping_add(1);
        if self.frame.ticks > 0 {
            return self.frame_tick();
        }
        let ready = self.command & TRANSMIT != 0 && !self.cts && self.mode_set;
        if ready && self.command & BREAK != 0 {
            self.guard = self.sending.factor;
            return false;
        }
        if self.guard > 0 {
            self.guard -= 1;
            return true;
        }
        if ready && self.full {
            self.full = false;
            self.frame_start = self.transmit_tally;
            self.frame = Frame::begin(&self.sending, self.waiting);
            return self.frame_tick();
        }
        true
    }

    fn frame_tick(&mut self) -> bool {
        let level = self.frame.tick();
        if self.frame.ticks == 0 && !self.full && self.command & TRANSMIT != 0 {
            self.empty_mark = true;
        }
        level
    }

    /// A receive tick with the line at `level` ("Receiving").
    #[inline(always)]
    pub fn receive(&mut self, level: bool) {
        self.receive_tally = self.receive_tally.wrapping_add(1);
        if self.command & RECEIVE == 0 || self.dcd || !self.mode_set {
            self.receiver.phase = Phase::Waiting;
            return;
        }
        match self.receiver.phase {
            Phase::Waiting => {
                if level {
                    self.receiver.phase = Phase::Searching;
                }
            }
            Phase::Searching => {
                if !level {
                    self.start();
                }
            }
            Phase::Hearing => {
                if self.receiver.countdown > 0 {
                    self.receiver.countdown -= 1;
                } else {
                    self.look(level);
                }
            }
        }
    }

    /// Tick 0 of a character. With a factor of 1 it is the start's only look too.
    fn start(&mut self) {
        let format = self.receiving;
        let half = format.factor / 2;
        self.receiver = Receiver {
            phase: Phase::Hearing,
            countdown: if half == 0 { 0 } else { half - 1 },
            look: u8::from(half == 0),
            value: 0,
            wrong: false,
            format,
        };
    }

    /// The next look at the character under way.
    fn look(&mut self, level: bool) {
        let r = &mut self.receiver;
        if r.look == 0 {
            if level {
                r.phase = Phase::Searching;
                return;
            }
        } else if r.look <= r.format.length {
            r.value |= u8::from(level) << (r.look - 1);
        } else if r.format.parity && r.look == r.format.length + 1 {
            r.wrong = level != r.format.parity_of(r.value);
        } else {
            self.arrive(level);
            return;
        }
        r.look += 1;
        r.countdown = r.format.factor - 1;
    }

    /// The stop sample: the character enters RHR.
    fn arrive(&mut self, stop: bool) {
        self.overrun |= self.unread;
        self.parity |= self.receiver.wrong;
        self.framing |= !stop;
        self.held = self.receiver.value;
        self.unread = true;
        self.stamp = self.receive_tally;
        self.receiver.phase = if stop {
            Phase::Searching
        } else {
            Phase::Waiting
        };
    }

    fn status(&self) -> u8 {
        u8::from(!self.dsr) << 7
            | u8::from(!self.dcd) << 6
            | u8::from(self.framing) << 5
            | u8::from(self.overrun) << 4
            | u8::from(self.parity) << 3
            | u8::from(self.empty_mark || self.change_mark) << 2
            | u8::from(self.unread) << 1
            | u8::from(self.command & TRANSMIT != 0 && !self.full)
    }

    /// When the held character came, on the receive clock (P4).
    pub fn stamp(&self) -> u32 {
        self.stamp
    }

    /// When the last frame began, on the transmit clock (P4).
    pub fn frame_start(&self) -> u32 {
        self.frame_start
    }

    /// The transmit ticks and the receive ticks since reset (P4).
    pub fn tallies(&self) -> [u32; 2] {
        [self.transmit_tally, self.receive_tally]
    }

    /// SYN1, SYN2 and DLE, which no call of the chip itself reads.
    pub fn syn(&self) -> [u8; 3] {
        self.syn
    }
}

/// A joined tick: both transmit ticks, then each receiver takes the other's level. The levels of `a` and `b`. It is
/// inlined with its four ticks, which the compiler by itself does in some programs only.
#[inline(always)]
pub fn joined_tick(a: &mut Chip, b: &mut Chip) -> [bool; 2] {
    let from_a = a.transmit();
    let from_b = b.transmit();
    a.receive(from_b);
    b.receive(from_a);
    [from_a, from_b]
}

/// Joined ticks, one at a time.
pub fn joined_ticks(a: &mut Chip, b: &mut Chip, count: u16) {
    for _ in 0..count {
        joined_tick(a, b);
    }
}

/// Joined ticks until `to` has an unread character, or the limit is used up; how many. (Inlined, so that programs without
/// a wait are compiled as before.)
#[inline]
pub fn joined_wait(from: &mut Chip, to: &mut Chip, limit: u16) -> u16 {
    let mut count = 0;
    while count < limit && !to.unread {
        joined_tick(from, to);
        count += 1;
    }
    count
}
