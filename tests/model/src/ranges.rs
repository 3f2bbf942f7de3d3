//! The ranges of a device's fields (docs/RANGES.md), by the bytes of the struct
//! that a host lends, a number of two bytes with its low byte first. Any number is in range
//! in the tallies and stamps. The status byte is held to what the other fields mean (P7 of
//! the change requests).

use crate::calls::DEVICE_BYTES;
use crate::Format;

/// The place of the status byte.
pub const STATUS: usize = 61;

pub fn in_range(bytes: &[u8; DEVICE_BYTES]) -> bool {
    fields_in_range(bytes) && wrong_bits(bytes) == 0
}

/// The bits of the status byte that are not what the other fields mean.
pub fn wrong_bits(bytes: &[u8; DEVICE_BYTES]) -> u8 {
    bytes[STATUS] ^ meant_status(bytes)
}

/// What the other fields mean as a status byte ("Registers"), by their own numbers alone.
pub fn meant_status(bytes: &[u8; DEVICE_BYTES]) -> u8 {
    let is = |place: usize| bytes[place] == 1;
    let low = |place: usize| bytes[place] == 0;
    let (transmit_enabled, empty) = (bytes[3] % 2 == 1, low(21));
    let bits = [
        (128, low(9)),
        (64, low(10)),
        (32, is(56)),
        (16, is(57)),
        (8, is(58)),
        (4, is(59) || is(60)),
        (2, is(44)),
        (1, transmit_enabled && empty),
    ];
    let set = bits.iter().filter(|(_, holds)| *holds);
    set.map(|(bit, _)| bit).sum()
}

/// The device with the status byte that its other fields mean.
pub fn restated(mut bytes: [u8; DEVICE_BYTES]) -> [u8; DEVICE_BYTES] {
    bytes[STATUS] = meant_status(&bytes);
    bytes
}

/// The ranges of all fields but the status byte.
pub fn fields_in_range(bytes: &[u8; DEVICE_BYTES]) -> bool {
    registers_in_range(&bytes[0..9])
        && levels_in_range(&bytes[9..12])
        && sender_in_range(&bytes[12..23])
        && receiver_in_range(&bytes[32..45])
        && levels_in_range(&bytes[56..61])
}

fn levels_in_range(bytes: &[u8]) -> bool {
    bytes.iter().all(|&level| level <= 1)
}

fn all_zero(bytes: &[u8]) -> bool {
    bytes.iter().all(|&byte| byte == 0)
}

fn registers_in_range(bytes: &[u8]) -> bool {
    let (mode1, accepted, command) = (bytes[0], bytes[2], bytes[3]);
    let (modes, syns) = (bytes[7], bytes[8]);
    let mode = match accepted {
        0 => mode1 == 0,
        1 => mode1 & 3 != 0 && mode1 >> 6 != 0,
        _ => false,
    };
    mode && command & 0b1101_0000 == 0 && modes <= 1 && syns <= 2
}

/// The format of five bytes, if it is in range.
pub fn format(bytes: &[u8]) -> Option<Format> {
    let [factor, length, parity, even, stop] = [0, 1, 2, 3, 4].map(|i| u32::from(bytes[i]));
    let known = [1, 16, 64].contains(&factor) && (5..=8).contains(&length);
    let stops = [factor, factor + factor / 2, 2 * factor];
    (known && parity <= 1 && even <= 1 && stops.contains(&stop)).then_some(Format {
        factor,
        length,
        parity: parity == 1,
        even: even == 1,
        stop,
    })
}

fn sender_in_range(bytes: &[u8]) -> bool {
    let place = u32::from(u16::from_le_bytes([bytes[6], bytes[7]]));
    let (holding, full, guard) = (bytes[8], bytes[9], bytes[10]);
    let frame = if place == 0 {
        all_zero(&bytes[0..6]) && guard <= 64
    } else {
        format(&bytes[1..6]).is_some_and(|format| place < format.frame_length()) && guard == 0
    };
    frame && (full == 1 || full == 0 && holding == 0)
}

fn receiver_in_range(bytes: &[u8]) -> bool {
    let unread = bytes[12];
    let state = match bytes[0] {
        0 | 1 => all_zero(&bytes[1..11]),
        2 => format(&bytes[6..11]).is_some_and(|format| character_in_range(&format, &bytes[1..6])),
        _ => false,
    };
    state && unread <= 1
}

/// A character under way: its countdown, value, wrong parity and look.
fn character_in_range(format: &Format, bytes: &[u8]) -> bool {
    let [countdown, value, wrong] = [0, 1, 2].map(|i| u32::from(bytes[i]));
    let look = u32::from(u16::from_le_bytes([bytes[3], bytes[4]]));
    let stop_look = format.length + u32::from(format.parity) + 1;
    look <= stop_look
        && countdown < ticks_to(format, look)
        && value < 1 << bits_before(format, look)
        && (wrong == 0 || wrong == 1 && format.parity && look == stop_look)
}

/// The ticks up to a look from the one before it.
pub fn ticks_to(format: &Format, look: u32) -> u32 {
    if look == 0 {
        format.half()
    } else {
        format.factor
    }
}

/// The data bits that were taken before a look.
pub fn bits_before(format: &Format, look: u32) -> u32 {
    look.saturating_sub(1).min(format.length)
}
