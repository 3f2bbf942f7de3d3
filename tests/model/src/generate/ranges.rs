//! Random devices by their bytes (docs/RANGES.md), in range, with one byte spoilt and with
//! a wrong status byte. What a device is spoilt by is most often alone: the status byte
//! follows the other fields.

use super::any_mode;
use crate::calls::DEVICE_BYTES;
use crate::chip::{decode, format_bytes, set_number};
use crate::chip::{RECEIVE_TALLY, STAMP, START, TRANSMIT_TALLY};
use crate::draw::Draws;
use crate::ranges::{bits_before, in_range, meant_status, restated, ticks_to, STATUS};
use crate::Format;

/// The kind in the seeds, behind that of the calls.
const KIND: u32 = 5;
/// Numbers at the edges of fields.
const EDGES: [u8; 18] = [
    0, 1, 2, 3, 4, 5, 8, 9, 15, 16, 24, 32, 63, 64, 65, 96, 128, 255,
];
/// What the status byte follows: the command, two pins, whether a character waits and one is
/// unread, the flags and the marks. All but the command are 0 or 1.
pub const FOLLOWED: [usize; 10] = [3, 9, 10, FULL, 44, 56, 57, 58, 59, 60];
/// The character that waits, and whether one does.
const HOLDING: usize = 20;
const FULL: usize = 21;

/// The draws of a run of devices.
pub fn draws(index: u32) -> Draws {
    Draws::new(KIND, index)
}

/// A number below `n`, as often as not the first or the last.
fn at_edge(draws: &mut Draws, n: u32) -> u32 {
    let any = draws.below(n);
    draws.of(&[0, n - 1, any, any])
}

fn level(draws: &mut Draws) -> u8 {
    draws.below(2) as u8
}

/// A device in range.
pub fn device(draws: &mut Draws) -> [u8; DEVICE_BYTES] {
    let mut bytes = [(); DEVICE_BYTES].map(|()| level(draws));
    for any in [1, 4, 5, 6, 43] {
        bytes[any] = draws.byte();
    }
    bytes[0] = bytes[2] * any_mode(draws);
    bytes[3] = draws.byte() & 0b0010_1111;
    bytes[8] = draws.below(3) as u8;
    bytes[12..23].copy_from_slice(&sender(draws));
    bytes[32..43].copy_from_slice(&receiver(draws));
    for place in [START, TRANSMIT_TALLY, STAMP, RECEIVE_TALLY] {
        set_number(&mut bytes, place, tally(draws));
    }
    restated(bytes)
}

/// The device with the status byte that its other fields mean. What has to be 0 or 1 and is
/// not is read by its lowest bit, or as 1.
pub fn stated(draws: &mut Draws, mut bytes: [u8; DEVICE_BYTES]) -> [u8; DEVICE_BYTES] {
    let by_lowest_bit = draws.one_in(2);
    let mut read = bytes;
    for &place in &FOLLOWED[1..] {
        read[place] = match by_lowest_bit {
            true => read[place] % 2,
            false => read[place].min(1),
        };
    }
    bytes[STATUS] = meant_status(&read);
    bytes
}

/// A device in range with another status byte: most often one bit is wrong, else any are.
pub fn wrong_status(draws: &mut Draws, device: &[u8; DEVICE_BYTES]) -> [u8; DEVICE_BYTES] {
    let mut bytes = *device;
    let one = 1 << draws.below(8);
    let any = draws.between(1, 255) as u8;
    bytes[STATUS] ^= draws.of(&[one, one, any]);
    bytes
}

/// Any number, or one that a run of ticks takes past 2^32, or from there.
pub fn tally(draws: &mut Draws) -> u32 {
    let any = u32::from_le_bytes([(); 4].map(|()| draws.byte()));
    let near = draws.below(2000);
    draws.of(&[
        any,
        near,
        u32::MAX - near,
        u32::MAX - near % 64,
        u32::MAX - near % 3,
    ])
}

fn format(draws: &mut Draws) -> Format {
    let mode1 = any_mode(draws);
    decode(mode1, draws.one_in(4))
}

fn sender(draws: &mut Draws) -> [u8; 11] {
    let mut bytes = [0; 11];
    bytes[9] = level(draws);
    bytes[8] = bytes[9] * draws.byte();
    if draws.one_in(2) {
        bytes[10] = at_edge(draws, 65) as u8;
        return bytes;
    }
    let format = format(draws);
    let place = 1 + at_edge(draws, format.frame_length() - 1);
    bytes[0] = draws.byte();
    bytes[1..6].copy_from_slice(&format_bytes(&format));
    bytes[6..8].copy_from_slice(&(place as u16).to_le_bytes());
    bytes
}

/// Its state and its format.
fn receiver(draws: &mut Draws) -> [u8; 11] {
    let mut bytes = [0; 11];
    bytes[0] = draws.of(&[0, 1, 2, 2]);
    if bytes[0] < 2 {
        return bytes;
    }
    let format = format(draws);
    let stop_look = format.length + u32::from(format.parity) + 1;
    // With a factor of 1 there is no look but the first at the start.
    let first = u32::from(format.half() == 0);
    let look = first + at_edge(draws, stop_look + 1 - first);
    bytes[1] = at_edge(draws, ticks_to(&format, look)) as u8;
    bytes[2] = at_edge(draws, 1 << bits_before(&format, look)) as u8;
    bytes[3] = u8::from(format.parity && look == stop_look) * level(draws);
    bytes[4..6].copy_from_slice(&(look as u16).to_le_bytes());
    bytes[6..11].copy_from_slice(&format_bytes(&format));
    bytes
}

/// A device in range in which one field that the status byte follows is turned over, while
/// that byte stays as it was; and the place of the field. The command is one by its transmit
/// enable.
pub fn left_behind(draws: &mut Draws, device: &[u8; DEVICE_BYTES]) -> (usize, [u8; DEVICE_BYTES]) {
    let mut bytes = *device;
    let place = draws.of(&FOLLOWED);
    bytes[place] ^= 1;
    if place == FULL {
        bytes[HOLDING] = 0;
    }
    (place, bytes)
}

/// The device with another number in one byte, and which byte it is: a number at
/// the edge of some field, one more or one less, or any. Now and then the status byte
/// stays behind a field that it follows.
pub fn spoilt(draws: &mut Draws, device: &[u8; DEVICE_BYTES]) -> (usize, [u8; DEVICE_BYTES]) {
    let mut bytes = *device;
    let place = draws.below(DEVICE_BYTES as u32) as usize;
    bytes[place] = match draws.below(4) {
        0 => draws.of(&EDGES),
        1 => bytes[place].wrapping_add(1),
        2 => bytes[place].wrapping_sub(1),
        _ => draws.byte(),
    };
    if place != STATUS && !draws.one_in(4) {
        bytes = stated(draws, bytes);
    }
    (place, bytes)
}

/// A device out of range, which as often as not would have both interrupts by its
/// own bits.
pub fn out_of_range(draws: &mut Draws) -> [u8; DEVICE_BYTES] {
    let mut bytes = device(draws);
    match draws.below(6) {
        0 => bytes = [255; DEVICE_BYTES],
        1 | 2 => bytes = spoilt(draws, &bytes).1,
        _ => {
            // Transmit and receive on, nothing waiting, a character unread.
            bytes[3] |= 5;
            bytes[20..22].fill(0);
            bytes[44] = 1;
            bytes = restated(bytes);
        }
    }
    if !in_range(&bytes) {
        return bytes;
    }
    if draws.one_in(2) {
        return wrong_status(draws, &bytes);
    }
    // The mode pointer, a pin, a flag or a mark.
    bytes[draws.of(&[7, 9, 11, 56, 60])] = draws.between(2, 255) as u8;
    stated(draws, bytes)
}
