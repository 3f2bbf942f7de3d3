//! The chip as the bytes of the struct that a host lends, and a chip from such
//! bytes (docs/RANGES.md has each field). A number of more than one byte
//! has its low byte first; the bytes between fields are 0. The status byte (P7) is made of
//! the chip as its bytes are looked at: no call of the chip keeps it, and each device that
//! does is held to it.

use super::{Chip, Receiver};
use crate::calls::DEVICE_BYTES;
use crate::ranges::{bits_before, format, in_range, STATUS};
use crate::{frame, Format};

// The places of the numbers of four bytes (P4).
pub const START: usize = 24;
pub const TRANSMIT_TALLY: usize = 28;
pub const STAMP: usize = 48;
pub const RECEIVE_TALLY: usize = 52;

/// The number of four bytes at a place.
pub fn number(bytes: &[u8; DEVICE_BYTES], place: usize) -> u32 {
    let four = [0, 1, 2, 3].map(|byte| bytes[place + byte]);
    u32::from_le_bytes(four)
}

pub fn set_number(bytes: &mut [u8; DEVICE_BYTES], place: usize, number: u32) {
    bytes[place..place + 4].copy_from_slice(&number.to_le_bytes());
}

impl Chip {
    /// The chip of some bytes; none where they are out of range.
    pub fn of_bytes(bytes: &[u8; DEVICE_BYTES]) -> Option<Chip> {
        if !in_range(bytes) {
            return None;
        }
        let mut chip = Chip::just_reset();
        chip.mode1 = (bytes[2] == 1).then_some(bytes[0]);
        chip.mode2 = bytes[1];
        chip.command = bytes[3];
        chip.syn = [bytes[4], bytes[5], bytes[6]];
        chip.mode2_next = bytes[7] == 1;
        chip.syn_next = bytes[8].into();
        [chip.dsr, chip.dcd, chip.cts] = [bytes[9], bytes[10], bytes[11]];
        chip.take_sender(&bytes[12..23]);
        chip.take_receiver(&bytes[32..45]);
        let number = |place: usize| number(bytes, place);
        [chip.start, chip.transmit_tally] = [START, TRANSMIT_TALLY].map(number);
        [chip.stamp, chip.receive_tally] = [STAMP, RECEIVE_TALLY].map(number);
        let flag = |place: usize| bytes[place] == 1;
        [chip.framing, chip.overrun, chip.parity] = [56, 57, 58].map(flag);
        [chip.empty_mark, chip.change_mark] = [59, 60].map(flag);
        Some(chip)
    }

    fn take_sender(&mut self, bytes: &[u8]) {
        let place = usize::from(u16::from_le_bytes([bytes[6], bytes[7]]));
        if place > 0 {
            let format = format(&bytes[1..6]).expect("it is in range");
            self.sending = frame(&format, bytes[0]).into_iter().skip(place).collect();
            self.begun = Some((format, bytes[0]));
        }
        self.waiting = (bytes[9] == 1).then_some(bytes[8]);
        self.guard = bytes[10].into();
    }

    fn take_receiver(&mut self, bytes: &[u8]) {
        self.receiver = match bytes[0] {
            0 => Receiver::Waiting,
            1 => Receiver::Searching,
            _ => hearing(bytes),
        };
        self.held = bytes[11];
        self.unread = bytes[12] == 1;
    }

    pub fn bytes(&self) -> [u8; DEVICE_BYTES] {
        let mut bytes = [0; DEVICE_BYTES];
        let [syn1, syn2, dle] = self.syn;
        let accepted = u8::from(self.mode1.is_some());
        let mode1 = self.mode1.unwrap_or(0);
        let pointers = [u8::from(self.mode2_next), self.syn_next as u8];
        bytes[0..7].copy_from_slice(&[mode1, self.mode2, accepted, self.command, syn1, syn2, dle]);
        bytes[7..9].copy_from_slice(&pointers);
        bytes[9..12].copy_from_slice(&[self.dsr, self.dcd, self.cts]);
        bytes[12..23].copy_from_slice(&self.sender_bytes());
        bytes[32..45].copy_from_slice(&self.receiver_bytes());
        for (place, number) in [
            (START, self.start),
            (TRANSMIT_TALLY, self.transmit_tally),
            (STAMP, self.stamp),
            (RECEIVE_TALLY, self.receive_tally),
        ] {
            set_number(&mut bytes, place, number);
        }
        let flags = [self.framing, self.overrun, self.parity];
        let marks = [self.empty_mark, self.change_mark];
        bytes[56..59].copy_from_slice(&flags.map(u8::from));
        bytes[59..61].copy_from_slice(&marks.map(u8::from));
        bytes[STATUS] = self.status();
        bytes
    }

    fn sender_bytes(&self) -> [u8; 11] {
        let mut bytes = [0; 11];
        if let Some((format, character)) = self.begun {
            let place = format.frame_length() - self.sending.len() as u32;
            bytes[0] = character;
            bytes[1..6].copy_from_slice(&format_bytes(&format));
            bytes[6..8].copy_from_slice(&(place as u16).to_le_bytes());
        }
        bytes[8] = self.waiting.unwrap_or(0);
        bytes[9] = self.waiting.is_some().into();
        bytes[10] = self.guard as u8;
        bytes
    }

    fn receiver_bytes(&self) -> [u8; 13] {
        let mut bytes = [0; 13];
        match &self.receiver {
            Receiver::Waiting => {}
            Receiver::Searching => bytes[0] = 1,
            Receiver::Hearing { format, samples } => {
                bytes[0] = 2;
                bytes[1..6].copy_from_slice(&character_bytes(format, samples));
                bytes[6..11].copy_from_slice(&format_bytes(format));
            }
        }
        bytes[11] = self.held;
        bytes[12] = self.unread.into();
        bytes
    }
}

pub fn format_bytes(format: &Format) -> [u8; 5] {
    let [parity, even] = [format.parity, format.even].map(u32::from);
    [format.factor, format.length, parity, even, format.stop].map(|number| number as u8)
}

/// The tick of a look.
fn look_tick(format: &Format, look: u32) -> usize {
    (format.half() + format.factor * look) as usize
}

/// The look that a wrong parity is kept up to; no look without parity.
fn has_parity(format: &Format, look: u32) -> bool {
    format.parity && look == format.length + 2
}

/// The data bits that were taken before a look, from the samples.
fn data(format: &Format, look: u32, samples: &[bool]) -> Vec<bool> {
    let bits = 0..bits_before(format, look);
    bits.map(|bit| samples[look_tick(format, bit + 1)])
        .collect()
}

/// The countdown, value, wrong parity and look of a character under way.
fn character_bytes(format: &Format, samples: &[bool]) -> [u8; 5] {
    let heard = samples.len();
    let next = (0..).find(|&look| look_tick(format, look) >= heard);
    let look = next.expect("the stop is not heard yet");
    let data = data(format, look, samples);
    let value = data
        .iter()
        .rev()
        .fold(0, |sum, &bit| 2 * sum + u8::from(bit));
    let parity = || samples[look_tick(format, format.length + 1)];
    let wrong = has_parity(format, look) && parity() != format.parity_level(&data);
    let [low, high] = (look as u16).to_le_bytes();
    let countdown = (look_tick(format, look) - heard) as u8;
    [countdown, value, wrong.into(), low, high]
}

/// The samples that are looked at are those of the bytes, the others 0.
fn hearing(bytes: &[u8]) -> Receiver {
    let format = format(&bytes[6..11]).expect("it is in range");
    let look = u32::from(u16::from_le_bytes([bytes[4], bytes[5]]));
    let mut samples = vec![false; look_tick(&format, look) - usize::from(bytes[1])];
    for bit in 0..bits_before(&format, look) {
        samples[look_tick(&format, bit + 1)] = bytes[2] >> bit & 1 == 1;
    }
    if has_parity(&format, look) {
        let right = format.parity_level(&data(&format, look, &samples));
        samples[look_tick(&format, format.length + 1)] = right != (bytes[3] == 1);
    }
    Receiver::Hearing { format, samples }
}
