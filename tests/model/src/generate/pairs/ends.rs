//! The two ends of a line when a run begins, by their bytes (docs/RANGES.md): what
//! each sends at any place of it, and the other's receiver just where that puts it,
//! or nearly there.

use crate::calls::DEVICE_BYTES;
use crate::chip::{decode, format_bytes, RECEIVE};
use crate::chip::{INTERNAL_RECEIVE_CLOCK, INTERNAL_TRANSMIT_CLOCK};
use crate::draw::Draws;
use crate::generate::{any_mode, ranges};
use crate::pair::hearing::{heard, Receiver};
use crate::ranges::{in_range, restated};
use crate::{frame, Format};

const TRANSMIT: u8 = 1;
const BREAK: u8 = 8;
const CLOCKS: u8 = INTERNAL_TRANSMIT_CLOCK + INTERNAL_RECEIVE_CLOCK;
/// Tries at a device that is nearly in step and still in range.
const TRIES: u32 = 12;

/// Both mode registers.
#[derive(Clone, Copy)]
pub struct Modes {
    pub mode1: u8,
    pub mode2: u8,
}

impl Modes {
    fn sends(&self) -> Format {
        decode(self.mode1, self.mode2 & INTERNAL_TRANSMIT_CLOCK != 0)
    }
}

/// The modes of both ends: most often one for both but for the stop length, else one
/// of its fields is another, or all may be.
pub fn modes(draws: &mut Draws) -> [Modes; 2] {
    let mode1 = any_mode(draws);
    let one = draws.of(&[INTERNAL_TRANSMIT_CLOCK, INTERNAL_RECEIVE_CLOCK]);
    let clocks = draws.of(&[0, 0, 0, CLOCKS, one]);
    let mode2 = draws.byte() & !CLOCKS;
    let near = Modes {
        mode1,
        mode2: mode2 | clocks,
    };
    let any = any_mode(draws);
    // Bits 1-0 are the factor, 3-2 the length, 4 and 5 the parity, 7-6 the stop.
    let other = draws.of(&[12, 16, 32, 48, 255]);
    let fields = draws.of(&[192, 192, 192, 3, 3, other, other]);
    let far = Modes {
        mode1: mode1 & !fields | any & fields,
        mode2: draws.of(&[near.mode2, near.mode2, near.mode2, mode2, mode2 ^ 16]),
    };
    draws.of(&[[near, far], [far, near]])
}

/// What an end does when a run begins.
struct Sending {
    /// The bytes of its sender, and whether a break is on.
    sender: [u8; 11],
    breaks: bool,
    /// What it has sent since the line was at mark.
    sent: Vec<bool>,
}

/// A frame at any place, a break, the guard behind one, or mark; a character waits in
/// most.
fn sending(draws: &mut Draws, format: &Format) -> Sending {
    let mut sender = [0; 11];
    sender[9] = draws.of(&[0, 1, 1]);
    sender[8] = sender[9] * draws.byte();
    let mut sent = Vec::new();
    let kind = draws.below(11);
    match kind {
        0..=5 => {
            sender[0] = draws.byte();
            sender[1..6].copy_from_slice(&format_bytes(format));
            let place = place(draws, format);
            sender[6..8].copy_from_slice(&(place as u16).to_le_bytes());
            sent = frame(format, sender[0]);
            sent.truncate(place as usize);
        }
        6 | 7 => {
            sent = vec![false; draws.between(1, 2 * format.stop_sample()) as usize];
            let any = draws.below(65);
            sender[10] = draws.of(&[format.factor, format.factor, any]) as u8;
        }
        8 => {
            let left = draws.between(1, format.factor);
            // As often as not about half a bit, which may be a false start.
            let most = draws.of(&[format.half() + 1, 2 * format.stop_sample()]);
            sent = vec![false; draws.between(1, most) as usize];
            sent.extend(vec![true; (format.factor - left) as usize]);
            sender[10] = left as u8;
        }
        _ => {}
    }
    let breaks = matches!(kind, 6 | 7);
    Sending {
        sender,
        breaks,
        sent,
    }
}

/// A place in a frame, most often at or beside an edge of a bit, a look, or an end.
fn place(draws: &mut Draws, format: &Format) -> u32 {
    let last = format.frame_length() - 1;
    let bits = format.length + u32::from(format.parity) + 1;
    let edge = format.factor * draws.between(1, bits);
    let look = format.half() + format.factor * draws.between(0, bits);
    let stop = format.stop_sample();
    let beside = draws.of(&[1, edge, look, look, stop, last]) + draws.of(&[0, 1, 2]);
    let any = draws.between(1, last);
    // Behind the last look before the stop, where a wrong parity is kept.
    let checked = stop - draws.below(format.factor);
    let place = draws.of(&[beside, beside, checked + 1, any + 1]);
    place.saturating_sub(1).clamp(1, last)
}

/// A frame that is a tick or a bit before or behind where the other's receiver has
/// it.
fn slipped(draws: &mut Draws, sending: &mut Sending, format: &Format) {
    let place = u16::from_le_bytes([sending.sender[6], sending.sender[7]]);
    if place == 0 {
        return;
    }
    let by = draws.of(&[1, format.factor as i32]) * draws.of(&[-1, -1, 1]);
    let last = format.frame_length() as i32 - 1;
    let place = (i32::from(place) + by).clamp(1, last) as u16;
    sending.sender[6..8].copy_from_slice(&place.to_le_bytes());
}

/// A receiver with one of its fields another: the bytes of its state, then those of
/// its format.
fn nearly(draws: &mut Draws, receiver: &Receiver) -> Receiver {
    let mut bytes = *receiver;
    let by = draws.of(&[1, 255]);
    match draws.below(15) {
        0 => bytes[1] = bytes[1].wrapping_add(by),
        // A look that may fall into a neighbouring bit.
        14 => bytes[1] = draws.below(bytes[6].into()) as u8,
        1 | 2 => bytes[2] ^= 1 << draws.below(8),
        3..=5 => bytes[3] ^= 1,
        6 => bytes[4] = bytes[4].wrapping_add(by),
        7..=9 => {
            bytes[6] = draws.of(&[1, 16, 64]);
            bytes[10] = bytes[6];
        }
        10 => bytes[7] = bytes[7].wrapping_add(by),
        11 => bytes[8] ^= 1,
        12 => bytes[9] ^= 1,
        _ => {
            bytes = [0; 11];
            bytes[0] = draws.below(2) as u8;
        }
    }
    bytes
}

/// Both ends, each with what it sends and what it has heard of the other.
pub fn ends(draws: &mut Draws) -> [[u8; DEVICE_BYTES]; 2] {
    let modes = modes(draws);
    let mut sendings = modes.map(|modes| sending(draws, &modes.sends()));
    let heard = [1, 0].map(|other: usize| {
        let Modes { mode1, mode2 } = modes[1 - other];
        heard(mode1, mode2, &sendings[other].sent)
    });
    // Frames that slip, receivers that are another, or neither.
    let (slips, nears) = draws.of(&[
        (true, false),
        (true, false),
        (false, true),
        (false, true),
        (false, false),
    ]);
    if slips {
        for (sending, modes) in sendings.iter_mut().zip(&modes) {
            slipped(draws, sending, &modes.sends());
        }
    }
    let tries = if nears { TRIES } else { 0 };
    [0, 1].map(|end| {
        let mut bytes = switched(draws, &modes[end], &sendings[end]);
        bytes[32..43].copy_from_slice(&heard[end]);
        for _ in 0..tries {
            let mut near = bytes;
            near[32..43].copy_from_slice(&nearly(draws, &heard[end]));
            if in_range(&near) && near != bytes {
                return near;
            }
        }
        bytes
    })
}

/// The device but for its receiver: on in both directions, most often, and with the
/// modes that it sends and hears by.
fn switched(draws: &mut Draws, modes: &Modes, sending: &Sending) -> [u8; DEVICE_BYTES] {
    let mut bytes = ranges::device(draws);
    bytes[..3].copy_from_slice(&[modes.mode1, modes.mode2, 1]);
    bytes[3] = bytes[3] & !BREAK | TRANSMIT | RECEIVE;
    if sending.breaks {
        bytes[3] |= BREAK;
    }
    bytes[10..12].fill(0);
    bytes[12..23].copy_from_slice(&sending.sender);
    if draws.one_in(3) {
        match draws.below(7) {
            0 => bytes[3] &= !TRANSMIT,
            1 => bytes[3] &= !RECEIVE,
            2 => bytes[3] ^= BREAK,
            3 => bytes[10] = 1,
            4 => bytes[11] = 1,
            5 => [bytes[0], bytes[2]] = [0, 0],
            _ => bytes[0] = any_mode(draws),
        }
    }
    restated(bytes)
}

/// The ends of a line that is silent, or soon: nothing more than what is under way.
pub fn silent(draws: &mut Draws) -> [[u8; DEVICE_BYTES]; 2] {
    let mut both = ends(draws);
    for bytes in &mut both {
        // No frame, in most; its guard then may be any that it has.
        if !draws.one_in(4) {
            bytes[12..20].fill(0);
        }
        if draws.one_in(2) {
            bytes[20..22].fill(0);
        }
        // The receiver waits, or searches.
        if draws.one_in(2) {
            bytes[32..43].fill(0);
            bytes[32] = draws.below(2) as u8;
        }
    }
    both.map(restated)
}
