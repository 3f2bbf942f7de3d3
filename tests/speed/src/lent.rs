//! One chip in place on the struct that a C host lends, with the exact check of docs/RANGES.md at each call: what
//! `lent/chip.c` is in C. The sections named are those of document 01.

use std::mem::offset_of;

// The bits of the command and of mode 2 ("Registers").
const TRANSMIT: u8 = 1;
const DTR: u8 = 2;
const RECEIVE: u8 = 4;
const BREAK: u8 = 8;
const RESET_ERROR: u8 = 16;
const RTS: u8 = 32;
const INTERNAL_TRANSMIT_CLOCK: u8 = 32;
const INTERNAL_RECEIVE_CLOCK: u8 = 16;

// Where the receiver stands: `phase`.
const WAITING: u8 = 0;
const SEARCHING: u8 = 1;
const HEARING: u8 = 2;

// Refusals.
const NO_SUCH_LEVEL: u8 = 2;
const NO_STOP_LENGTH: u8 = 3;
const SYNCHRONOUS: u8 = 4;
const NOT_NORMAL_OPERATION: u8 = 5;

// The struct is that of include/ins2651.h.

#[repr(C)]
#[derive(Clone, Copy, Debug, Default, PartialEq)]
pub struct Registers {
    mode1: u8,
    mode2: u8,
    accepted: u8,
    command: u8,
    syn1: u8,
    syn2: u8,
    dle: u8,
    modes: u8,
    syns: u8,
}

#[repr(C)]
#[derive(Clone, Copy, Debug, PartialEq)]
pub struct Pins {
    dsr: u8,
    dcd: u8,
    cts: u8,
}

#[repr(C)]
#[derive(Clone, Copy, Debug, Default, PartialEq)]
pub struct Format {
    factor: u8,
    length: u8,
    parity: u8,
    even: u8,
    stop: u8,
}

#[repr(C)]
#[derive(Clone, Copy, Debug, Default, PartialEq)]
pub struct Frame {
    character: u8,
    format: Format,
    place: u16,
}

#[repr(C)]
#[derive(Clone, Copy, Debug, Default, PartialEq)]
pub struct Sender {
    frame: Frame,
    holding: u8,
    full: u8,
    guard: u8,
    start: u32,
    tally: u32,
}

#[repr(C)]
#[derive(Clone, Copy, Debug, Default, PartialEq)]
pub struct Sampling {
    phase: u8,
    countdown: u8,
    value: u8,
    wrong: u8,
    look: u16,
}

#[repr(C)]
#[derive(Clone, Copy, Debug, Default, PartialEq)]
pub struct Receiver {
    state: Sampling,
    format: Format,
    holding: u8,
    unread: u8,
    stamp: u32,
    tally: u32,
}

#[repr(C)]
#[derive(Clone, Copy, Debug, Default, PartialEq)]
pub struct Flags {
    framing: u8,
    overrun: u8,
    parity: u8,
    empty: u8,
    change: u8,
}

#[repr(C)]
#[derive(Clone, Copy, Debug, PartialEq)]
pub struct Device {
    registers: Registers,
    pins: Pins,
    sender: Sender,
    receiver: Receiver,
    flags: Flags,
    /// What the fields above mean, kept by every call (P7 of the change requests).
    status: u8,
}

pub const DEVICE_BYTES: usize = 64;
const _: () = assert!(std::mem::size_of::<Device>() == DEVICE_BYTES);

/// Where the transmit tally and the receive tally are.
pub const TALLIES: [usize; 2] = [
    offset_of!(Device, sender.tally),
    offset_of!(Device, receiver.tally),
];

impl Format {
    /// Stop lengths 1, 2, 3 are 2, 3, 4 half bits; with a factor of 1 one and a half is cut to one tick.
    fn decode(mode1: u8, internal: bool) -> Format {
        let factor = factor_of(mode1, internal);
        Format {
            factor,
            length: 5 + (mode1 >> 2 & 3),
            parity: mode1 >> 4 & 1,
            even: mode1 >> 5 & 1,
            stop: (u32::from(factor) * (u32::from(mode1 >> 6) + 1) / 2) as u8,
        }
    }

    #[inline(always)]
    fn in_range(&self) -> bool {
        let (factor, stop) = (u32::from(self.factor), u32::from(self.stop));
        (factor == 1 || factor == 16 || factor == 64)
            && self.length >= 5
            && self.length <= 8
            && (self.parity | self.even) <= 1
            && (stop == factor || stop == factor + factor / 2 || stop == 2 * factor)
    }

    /// L of "Sending".
    #[inline(always)]
    fn frame_length(&self) -> u32 {
        let bits = 1 + u32::from(self.length) + u32::from(self.parity);
        u32::from(self.factor) * bits + u32::from(self.stop)
    }

    /// The parity level that goes with data bits, and nothing above them.
    fn parity_of(&self, data: u8) -> u8 {
        (data.count_ones() as u8 & 1) ^ self.even ^ 1
    }
}

fn factor_of(mode1: u8, internal: bool) -> u8 {
    match mode1 & 3 {
        _ if internal => 16,
        2 => 16,
        1 => 1,
        _ => 64,
    }
}

impl Registers {
    #[inline(always)]
    fn in_range(&self) -> bool {
        let set = (self.accepted == 1) & (self.mode1 & 3 != 0) & (self.mode1 >= 64);
        let unset = self.accepted | self.mode1 == 0;
        (set | unset) & (self.command & 208 == 0) & (self.modes <= 1) & (self.syns <= 2)
    }
}

impl Sender {
    #[inline(always)]
    fn in_range(&self) -> bool {
        let held = (self.full == 1) | (self.full | self.holding == 0);
        let (frame, format) = (&self.frame, &self.frame.format);
        if frame.place == 0 {
            return held & (self.guard <= 64) & frame.is_none();
        }
        held && self.guard == 0
            && format.in_range()
            && u32::from(frame.place) < format.frame_length()
    }
}

impl Receiver {
    #[inline(always)]
    fn in_range(&self) -> bool {
        let (s, f) = (&self.state, &self.format);
        if s.phase > SEARCHING {
            return s.phase == HEARING && f.in_range() && self.character_in_range();
        }
        self.is_idle()
    }

    /// With no character under way all is 0 from `countdown` to the end of the format, which is looked at as two words.
    #[inline(always)]
    fn is_idle(&self) -> bool {
        let from = std::ptr::from_ref(self).cast::<u8>();
        // SAFETY: bytes 1 to 10 of the struct are those fields, without padding.
        let words = unsafe {
            let eight = from.add(1).cast::<u64>().read_unaligned();
            (eight, from.add(9).cast::<u16>().read_unaligned())
        };
        words == (0, 0)
    }

    #[inline(always)]
    fn character_in_range(&self) -> bool {
        let (s, f) = (&self.state, &self.format);
        let stop_look = u16::from(f.length) + u16::from(f.parity) + 1;
        let bits = s.look.saturating_sub(1).min(u16::from(f.length));
        let ticks = if s.look == 0 { f.factor / 2 } else { f.factor };
        s.look <= stop_look
            && s.countdown < ticks
            && u32::from(s.value) >> bits == 0
            && s.wrong <= u8::from(f.parity == 1 && s.look == stop_look)
    }

    fn rest(&mut self, phase: u8) {
        self.state = Sampling {
            phase,
            ..Sampling::default()
        };
        self.format = Format::default();
    }

    /// With a factor of 1 the first look is the only one at the start, and it was a 0.
    fn start(&mut self, format: Format) {
        let half = format.factor / 2;
        self.state = Sampling {
            phase: HEARING,
            countdown: half.saturating_sub(1),
            look: u16::from(half == 0),
            ..Sampling::default()
        };
        self.format = format;
    }
}

impl Device {
    pub const RESET: Device = Device {
        registers: Registers {
            mode1: 0,
            mode2: 0,
            accepted: 0,
            command: 0,
            syn1: 0,
            syn2: 0,
            dle: 0,
            modes: 0,
            syns: 0,
        },
        pins: Pins {
            dsr: 1,
            dcd: 1,
            cts: 1,
        },
        sender: Sender {
            frame: Frame {
                character: 0,
                format: NO_FORMAT,
                place: 0,
            },
            holding: 0,
            full: 0,
            guard: 0,
            start: 0,
            tally: 0,
        },
        receiver: Receiver {
            state: Sampling {
                phase: WAITING,
                countdown: 0,
                value: 0,
                wrong: 0,
                look: 0,
            },
            format: NO_FORMAT,
            holding: 0,
            unread: 0,
            stamp: 0,
            tally: 0,
        },
        flags: Flags {
            framing: 0,
            overrun: 0,
            parity: 0,
            empty: 0,
            change: 0,
        },
        status: 0,
    };

    /// A device of any bytes.
    pub fn of_bytes(bytes: [u8; DEVICE_BYTES]) -> Device {
        // SAFETY: every field is a number, so that any bytes are a device.
        unsafe { std::mem::transmute(bytes) }
    }

    /// Another number in one byte.
    pub fn spoil(&mut self, place: usize, value: u8) {
        assert!(place < DEVICE_BYTES);
        // SAFETY: the byte is the device's, and any bytes are one.
        unsafe {
            std::ptr::from_mut(self)
                .cast::<u8>()
                .add(place)
                .write(value)
        };
    }

    /// Other tallies of the transmit ticks and of the receive ticks.
    pub fn set_tallies(&mut self, [transmit, receive]: [u32; 2]) {
        (self.sender.tally, self.receiver.tally) = (transmit, receive);
    }

    // What the fields say, without a look at the range.

    pub fn tallies(&self) -> [u32; 2] {
        [self.sender.tally, self.receiver.tally]
    }

    /// When the held character came, on the receive clock.
    pub fn stamp(&self) -> u32 {
        self.receiver.stamp
    }

    /// When the last frame began, on the transmit clock.
    pub fn frame_start(&self) -> u32 {
        self.sender.start
    }

    /// Numbers are in range in the tallies and stamps, whatever they are.
    #[inline(always)]
    pub fn in_range(&self) -> bool {
        let (p, f) = (&self.pins, &self.flags);
        let levels = p.dsr | p.dcd | p.cts | f.change | self.receiver.unread;
        // Four of them, looked at as one word.
        let flags = u32::from_ne_bytes([f.framing, f.overrun, f.parity, f.empty]);
        (levels <= 1)
            & (flags & 0xfefe_fefe == 0)
            & self.registers.in_range()
            & self.sender.in_range()
            & self.receiver.in_range()
            & (self.status == self.meant_status())
    }

    /// A device out of range is taken as one just reset.
    #[inline(always)]
    pub(crate) fn settle(&mut self) {
        if !self.in_range() {
            *self = Device::RESET;
        }
    }

    /// One that is out of range holds none.
    #[inline(always)]
    pub fn holds_unread(&self) -> bool {
        self.status & 2 != 0 && self.in_range()
    }

    /// Status bits 1 and 0, without a look at the range.
    #[inline(always)]
    pub fn interrupts(&self) -> u8 {
        self.status & 3
    }

    /// What the other fields mean.
    #[inline(always)]
    fn meant_status(&self) -> u8 {
        let pins = self.pins.dsr << 7 | self.pins.dcd << 6;
        let flags = &self.flags;
        let errors = flags.framing << 5 | flags.overrun << 4 | flags.parity << 3;
        let may_write = self.registers.command & TRANSMIT & !self.sender.full;
        let ready = (flags.empty | flags.change) << 2 | self.receiver.unread << 1 | may_write;
        (pins ^ 192) | errors | ready
    }

    /// Behind a change of a field that it follows.
    #[inline(always)]
    fn restate(&mut self) {
        self.status = self.meant_status();
    }

    // The calls. An address is at most 3.

    #[inline(always)]
    pub fn read(&mut self, address: u8) -> u8 {
        self.settle();
        let r = &mut self.registers;
        match address {
            0 => {
                self.receiver.unread = 0;
                self.status &= !2;
                self.receiver.holding
            }
            1 => {
                let before = self.status;
                self.flags.change = 0;
                self.restate();
                before
            }
            2 => {
                r.modes ^= 1;
                if r.modes == 1 {
                    r.mode1
                } else {
                    r.mode2
                }
            }
            _ => {
                (r.modes, r.syns) = (0, 0);
                r.command
            }
        }
    }

    /// The refusal.
    #[inline(always)]
    pub fn write(&mut self, address: u8, value: u8) -> u8 {
        if address == 2 {
            return self.write_mode(value);
        }
        if address == 3 && value > 63 {
            return NOT_NORMAL_OPERATION;
        }
        self.settle();
        match address {
            0 => {
                (self.sender.holding, self.sender.full) = (value, 1);
                self.flags.empty = 0;
                self.restate();
            }
            1 => self.write_syn(value),
            _ => self.write_command(value),
        }
        0
    }

    fn write_syn(&mut self, value: u8) {
        let r = &mut self.registers;
        match r.syns {
            0 => r.syn1 = value,
            1 => r.syn2 = value,
            _ => r.dle = value,
        }
        r.syns = if r.syns == 2 { 0 } else { r.syns + 1 };
    }

    /// Whether it is refused depends on the mode pointer, which is mode 1's on a device out of range.
    fn write_mode(&mut self, value: u8) -> u8 {
        let sound = self.in_range();
        if sound && self.registers.modes == 1 {
            (self.registers.mode2, self.registers.modes) = (value, 0);
            return 0;
        }
        if value & 3 == 0 {
            return SYNCHRONOUS;
        }
        if value & 192 == 0 {
            return NO_STOP_LENGTH;
        }
        if !sound {
            *self = Device::RESET;
        }
        let r = &mut self.registers;
        (r.mode1, r.accepted, r.modes) = (value, 1, 1);
        0
    }

    fn write_command(&mut self, value: u8) {
        self.registers.command = value & !RESET_ERROR;
        let receive = value & RECEIVE != 0;
        // Receive off clears the flags as well: P1.
        if !receive || value & RESET_ERROR != 0 {
            let flags = &mut self.flags;
            (flags.framing, flags.overrun, flags.parity) = (0, 0, 0);
        }
        if value & TRANSMIT == 0 {
            self.flags.empty = 0;
        }
        if !receive {
            self.receiver.rest(WAITING);
            self.receiver.unread = 0;
        }
        self.restate();
    }

    /// The refusal.
    #[inline(always)]
    pub fn set_pins(&mut self, dsr: u8, dcd: u8, cts: u8) -> u8 {
        if dsr | dcd | cts > 1 {
            return NO_SUCH_LEVEL;
        }
        self.settle();
        self.flags.change |= (dsr ^ self.pins.dsr) | (dcd ^ self.pins.dcd);
        self.pins = Pins { dsr, dcd, cts };
        self.restate();
        0
    }

    /// The level that is sent.
    #[inline(always)]
    pub fn transmit(&mut self) -> u8 {
        self.settle();
        self.transmit_tick()
    }

    /// The refusal.
    #[inline(always)]
    pub fn receive(&mut self, level: u8) -> u8 {
        if level > 1 {
            return NO_SUCH_LEVEL;
        }
        self.settle();
        self.receive_tick(level);
        0
    }

    // The ticks of a device in range; a level is at most 1.

    /// The level that is sent ("Sending").
    #[inline(always)]
    pub(crate) fn transmit_tick(&mut self) -> u8 {
        self.sender.tally = self.sender.tally.wrapping_add(1);
        if self.sender.frame.place > 0 {
            return self.frame_tick();
        }
        let (r, s) = (&self.registers, &mut self.sender);
        let internal = r.mode2 & INTERNAL_TRANSMIT_CLOCK != 0;
        let ready = r.command & TRANSMIT != 0 && self.pins.cts == 0 && r.accepted == 1;
        if ready && r.command & BREAK != 0 {
            s.guard = factor_of(r.mode1, internal);
            return 0;
        }
        if s.guard > 0 {
            s.guard -= 1;
        } else if ready && s.full == 1 {
            // This tick was its first.
            s.frame = Frame {
                character: s.holding,
                format: Format::decode(r.mode1, internal),
                place: 1,
            };
            (s.holding, s.full) = (0, 0);
            s.start = s.tally;
            // Transmit is enabled.
            self.status |= 1;
            return 0;
        }
        1
    }

    fn frame_tick(&mut self) -> u8 {
        let frame = &mut self.sender.frame;
        let level = frame.level();
        frame.place += 1;
        if u32::from(frame.place) == frame.format.frame_length() {
            *frame = Frame::default();
            if self.sender.full == 0 && self.registers.command & TRANSMIT != 0 {
                self.flags.empty = 1;
                self.status |= 4;
            }
        }
        level
    }

    /// "Receiving".
    #[inline(always)]
    pub(crate) fn receive_tick(&mut self, level: u8) {
        let (r, receiver) = (&self.registers, &mut self.receiver);
        receiver.tally = receiver.tally.wrapping_add(1);
        let state = &mut receiver.state;
        if r.command & RECEIVE == 0 || self.pins.dcd == 1 || r.accepted == 0 {
            receiver.rest(WAITING);
        } else if state.phase == WAITING {
            state.phase = level;
        } else if state.phase == HEARING && state.countdown > 0 {
            state.countdown -= 1;
        } else if state.phase == HEARING {
            self.look(level);
        } else if level == 0 {
            let internal = r.mode2 & INTERNAL_RECEIVE_CLOCK != 0;
            receiver.start(Format::decode(r.mode1, internal));
        }
    }

    fn look(&mut self, level: u8) {
        let Receiver {
            state: s,
            format: f,
            ..
        } = &mut self.receiver;
        let length = u16::from(f.length);
        if s.look == 0 {
            if level == 1 {
                // A false start is the mark for a new search.
                return self.receiver.rest(SEARCHING);
            }
        } else if s.look <= length {
            s.value |= level << (s.look - 1);
        } else if s.look == length + 1 && f.parity == 1 {
            s.wrong = u8::from(level != f.parity_of(s.value));
        } else {
            return self.arrive(level);
        }
        s.look += 1;
        s.countdown = f.factor - 1;
    }

    fn arrive(&mut self, stop: u8) {
        let (r, flags) = (&mut self.receiver, &mut self.flags);
        flags.overrun |= r.unread;
        flags.parity |= r.state.wrong;
        flags.framing |= stop ^ 1;
        (r.holding, r.unread) = (r.state.value, 1);
        r.stamp = r.tally;
        r.rest(if stop == 1 { SEARCHING } else { WAITING });
        self.restate();
    }

    /// TxRDY, RxRDY, TxEMT, DTR and RTS from bit 0 up, active low; those of a device just reset are high.
    #[inline(always)]
    pub fn outputs(&self) -> u8 {
        let command = self.registers.command;
        let active = self.status & 7 | (command & DTR) << 2 | (command & RTS) >> 1;
        if self.in_range() {
            active ^ 31
        } else {
            31
        }
    }
}

const NO_FORMAT: Format = Format {
    factor: 0,
    length: 0,
    parity: 0,
    even: 0,
    stop: 0,
};

impl Frame {
    /// Whether no frame is under way: all is 0, looked at as one word.
    #[inline(always)]
    fn is_none(&self) -> bool {
        // SAFETY: it is eight bytes without padding.
        unsafe { std::mem::transmute::<Frame, u64>(*self) == 0 }
    }

    fn level(&self) -> u8 {
        let f = &self.format;
        // The factor is a power of two.
        let bit = self.place >> f.factor.trailing_zeros();
        let length = u16::from(f.length);
        if bit == 0 {
            0
        } else if bit <= length {
            self.character >> (bit - 1) & 1
        } else if bit == length + 1 && f.parity == 1 {
            f.parity_of(self.character & (0xff >> (8 - f.length)))
        } else {
            1
        }
    }
}
