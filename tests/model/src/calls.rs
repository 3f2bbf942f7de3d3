//! The text of the C driver: a call of the chip on each line, and one line for
//! its answer. Two more lines set and show the bytes of the lent device.

use crate::chip::{Chip, View};
use crate::driver::Entry;
use crate::ranges::{fields_in_range, wrong_bits};
use crate::shorten::{smaller_bytes, smaller_levels};
use std::fmt;

/// The bytes of a device in C's layout (docs/RANGES.md).
pub const DEVICE_BYTES: usize = 64;
/// The bytes between fields, which the driver shows as 00.
pub const PADDING: [usize; 6] = [23, 45, 46, 47, 62, 63];

#[derive(Clone, Copy, Debug, PartialEq, Eq)]
pub enum Call {
    Reset,
    Read(u8),
    Write(u8, u8),
    /// The levels of DSR, DCD and CTS, in this order.
    Pins([u8; 3]),
    Transmit,
    Receive(u8),
    Outputs,
    Tick(u8),
    Peek,
    InRange,
    // The tallies of both clocks, and what each stamped (P4 of the change requests).
    Stamp,
    Start,
    TransmitTally,
    ReceiveTally,
}

impl Call {
    pub const NAMES: [&'static str; 14] = [
        "reset",
        "read",
        "write",
        "pins",
        "transmit",
        "receive",
        "outputs",
        "tick",
        "peek",
        "in_range",
        "stamp",
        "start",
        "transmit_tally",
        "receive_tally",
    ];

    /// Those that show a tally, or what it stamped.
    pub const OF_TALLIES: [Call; 4] = [
        Call::Stamp,
        Call::Start,
        Call::TransmitTally,
        Call::ReceiveTally,
    ];

    pub fn name(&self) -> &'static str {
        let place = match self {
            Call::Reset => 0,
            Call::Read(_) => 1,
            Call::Write(..) => 2,
            Call::Pins(_) => 3,
            Call::Transmit => 4,
            Call::Receive(_) => 5,
            Call::Outputs => 6,
            Call::Tick(_) => 7,
            Call::Peek => 8,
            Call::InRange => 9,
            Call::Stamp => 10,
            Call::Start => 11,
            Call::TransmitTally => 12,
            Call::ReceiveTally => 13,
        };
        Call::NAMES[place]
    }

    /// Whether it looks at the device and leaves it.
    fn only_looks(&self) -> bool {
        matches!(self, Call::Outputs | Call::Peek | Call::InRange)
            || Call::OF_TALLIES.contains(self)
    }

    /// The refusal, and the numbers that the driver answers.
    pub fn make(&self, chip: &mut Chip) -> (u8, Vec<u32>) {
        let refusal = match *self {
            Call::Reset => {
                chip.reset();
                0
            }
            Call::Read(address) => {
                let (refusal, value) = chip.read(address);
                return (refusal, vec![refusal.into(), value.into()]);
            }
            Call::Write(address, value) => chip.write(address, value),
            Call::Pins([dsr, dcd, cts]) => chip.set_pins(dsr, dcd, cts),
            Call::Transmit => return (0, vec![chip.transmit().into()]),
            Call::Receive(level) => chip.receive(level),
            Call::Outputs => return (0, chip.outputs().map(u32::from).to_vec()),
            Call::Tick(level) => {
                let (refusal, sent) = chip.tick(level);
                return (refusal, vec![refusal.into(), sent.into()]);
            }
            Call::Peek => return (0, vec![chip.peek().into()]),
            Call::Stamp => return (0, vec![chip.stamp()]),
            Call::Start => return (0, vec![chip.start()]),
            Call::TransmitTally => return (0, vec![chip.transmit_tally()]),
            Call::ReceiveTally => return (0, vec![chip.receive_tally()]),
            // A chip of the model is always in range.
            Call::InRange => return (0, vec![1]),
        };
        (refusal, vec![refusal.into()])
    }

    /// The call with one number smaller.
    pub fn simpler(self) -> Vec<Call> {
        match self {
            Call::Read(address) => smaller_bytes(address).map(Call::Read).collect(),
            Call::Receive(level) => smaller_bytes(level).map(Call::Receive).collect(),
            Call::Tick(level) => smaller_bytes(level).map(Call::Tick).collect(),
            Call::Write(address, value) => smaller_bytes(value)
                .map(|value| Call::Write(address, value))
                .collect(),
            Call::Pins(levels) => smaller_levels(levels).map(Call::Pins).collect(),
            _ => Vec::new(),
        }
    }
}

/// The line of the call.
impl fmt::Display for Call {
    fn fmt(&self, f: &mut fmt::Formatter) -> fmt::Result {
        write!(f, "{}", self.name())?;
        match *self {
            Call::Read(number) | Call::Receive(number) | Call::Tick(number) => {
                write!(f, " {number}")
            }
            Call::Write(address, value) => write!(f, " {address} {value}"),
            Call::Pins([dsr, dcd, cts]) => write!(f, " {dsr} {dcd} {cts}"),
            _ => Ok(()),
        }
    }
}

/// Bytes that are no device in range.
#[derive(Clone, Copy, Debug, PartialEq, Eq)]
pub enum Garbage {
    AllOnes,
    Random,
    /// A device just reset but for one byte, and its tallies and stamps, which are any.
    OneByte,
    /// Any device in range but for its status byte (P7 of the change requests).
    Status,
}

impl Garbage {
    pub const ALL: [Garbage; 4] = [
        Garbage::AllOnes,
        Garbage::Random,
        Garbage::OneByte,
        Garbage::Status,
    ];

    pub fn name(&self) -> &'static str {
        match self {
            Garbage::AllOnes => "all ones",
            Garbage::Random => "random bytes",
            Garbage::OneByte => "one wrong byte",
            Garbage::Status => "a wrong status byte",
        }
    }
}

/// A line of the driver's input.
#[derive(Clone, Copy, Debug, PartialEq, Eq)]
pub enum Line {
    Call(Call),
    /// The bytes of the device, and what they are where they are none in range.
    Device(Option<Garbage>, [u8; DEVICE_BYTES]),
    Bytes,
}

impl fmt::Display for Line {
    fn fmt(&self, f: &mut fmt::Formatter) -> fmt::Result {
        match self {
            Line::Call(call) => write!(f, "{call}"),
            Line::Device(_, bytes) => write!(f, "device {}", hexadecimal(bytes)),
            Line::Bytes => write!(f, "bytes"),
        }
    }
}

pub fn hexadecimal(bytes: &[u8]) -> String {
    bytes.iter().map(|byte| format!("{byte:02x}")).collect()
}

pub fn without_padding(mut bytes: [u8; DEVICE_BYTES]) -> [u8; DEVICE_BYTES] {
    PADDING.iter().for_each(|&place| bytes[place] = 0);
    bytes
}

/// The device that a host lends, as the model has it.
#[derive(Clone, Debug, PartialEq, Eq)]
pub enum Lent {
    InRange(Chip),
    /// It is taken as one just reset ("Refusal numbers").
    OutOfRange([u8; DEVICE_BYTES]),
}

impl Lent {
    pub fn of_bytes(bytes: [u8; DEVICE_BYTES]) -> Lent {
        match Chip::of_bytes(&bytes) {
            Some(chip) => Lent::InRange(chip),
            None => Lent::OutOfRange(bytes),
        }
    }

    /// The bytes, without padding.
    pub fn bytes(&self) -> [u8; DEVICE_BYTES] {
        match self {
            Lent::InRange(chip) => chip.bytes(),
            Lent::OutOfRange(bytes) => without_padding(*bytes),
        }
    }

    /// The bits that are wrong in the status byte of a device all of whose other fields are
    /// in range; none where one is not, or the byte is right.
    pub fn wrong_status(&self) -> u8 {
        match self {
            Lent::OutOfRange(bytes) if fields_in_range(bytes) => wrong_bits(bytes),
            _ => 0,
        }
    }

    /// The device with its tallies at 0; one out of range as it is.
    pub fn untallied(&self) -> Lent {
        match self {
            Lent::InRange(chip) => Lent::InRange(chip.untallied()),
            Lent::OutOfRange(bytes) => Lent::OutOfRange(*bytes),
        }
    }

    /// What a line answers.
    pub fn answer(&mut self, line: &Line) -> String {
        match line {
            Line::Call(call) => numbers(&self.call(call).1),
            Line::Device(_, bytes) => {
                *self = Lent::of_bytes(*bytes);
                "0".to_string()
            }
            Line::Bytes => hexadecimal(&self.bytes()),
        }
    }

    /// The chip, which is one just reset where the device is out of range.
    pub fn view(&self) -> View {
        match self {
            Lent::InRange(chip) => chip.view(),
            Lent::OutOfRange(..) => Chip::just_reset().view(),
        }
    }

    /// The status, which is that of one just reset where the device is out of range.
    pub fn status(&self) -> u8 {
        match self {
            Lent::InRange(chip) => chip.peek(),
            Lent::OutOfRange(_) => Chip::just_reset().peek(),
        }
    }

    /// Whether it holds an unread character; one out of range holds none.
    pub fn holds_unread(&self) -> bool {
        match self {
            Lent::InRange(chip) => chip.holds_unread(),
            Lent::OutOfRange(_) => false,
        }
    }

    /// The chip, which is from now on one just reset where the device is out of
    /// range.
    pub fn settled(&mut self) -> &mut Chip {
        if let Lent::OutOfRange(_) = self {
            *self = Lent::InRange(Chip::just_reset());
        }
        match self {
            Lent::InRange(chip) => chip,
            Lent::OutOfRange(_) => unreachable!("it is settled"),
        }
    }

    /// The refusal, and the numbers answered. A refused call hands bytes out of
    /// range back as given, and so does one that only looks.
    pub fn call(&mut self, call: &Call) -> (u8, Vec<u32>) {
        match self {
            Lent::InRange(chip) => call.make(chip),
            Lent::OutOfRange(..) if *call == Call::InRange => (0, vec![0]),
            Lent::OutOfRange(..) => {
                let mut chip = Chip::just_reset();
                let answer = call.make(&mut chip);
                if answer.0 == 0 && !call.only_looks() {
                    *self = Lent::InRange(chip);
                }
                answer
            }
        }
    }
}

/// Numbers as the driver writes them, parted by one blank.
pub fn numbers<N: ToString>(all: &[N]) -> String {
    let words: Vec<String> = all.iter().map(N::to_string).collect();
    words.join(" ")
}

impl Entry for Line {
    type Model = Lent;

    fn start() -> Lent {
        Lent::InRange(Chip::just_reset())
    }

    fn answer(&self, lent: &mut Lent) -> String {
        lent.answer(self)
    }

    /// A shortened run says itself what its device is at first.
    fn may_begin(&self) -> bool {
        matches!(self, Line::Call(Call::Reset) | Line::Device(..))
    }

    fn is_call(&self) -> bool {
        matches!(self, Line::Call(_))
    }

    fn simpler(&self) -> Vec<Line> {
        let Line::Call(call) = *self else {
            return Vec::new();
        };
        call.simpler().into_iter().map(Line::Call).collect()
    }
}
