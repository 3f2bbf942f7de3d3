//! The board in plain Rust: the board's four bytes and eight lent devices, in place, with the answers that C gets. It is
//! what `board/run` times the proved calls against; `tests/board.rs` holds it to the independent model.

use crate::lent::Device;

pub const CHANNELS: usize = 8;

// Refusals (P2 of the change requests), in their order.
const WRONG_ROOM: u8 = 10;
const NO_SUCH_PORT: u8 = 8;
const NOT_SELECTED: u8 = 9;

#[repr(C)]
#[derive(Clone, Copy, Debug, PartialEq)]
pub struct Board {
    pub number: u8,
    pub select: u8,
    pub transmit_mask: u8,
    pub receive_mask: u8,
}

/// The answer of a call with a value: 256 times the refusal, plus the value.
#[inline(always)]
fn answer(value: Result<u8, u8>) -> u16 {
    match value {
        Ok(value) => value.into(),
        Err(refusal) => u16::from(refusal) << 8,
    }
}

/// The room, if it is one of eight.
#[inline(always)]
fn eight(room: &mut [Device]) -> Result<&mut [Device; CHANNELS], u8> {
    room.try_into().map_err(|_| WRONG_ROOM)
}

/// A channel that a call names.
#[inline(always)]
fn named(room: &mut [Device], channel: u8) -> Result<&mut Device, u8> {
    let device = eight(room)?.get_mut(usize::from(channel));
    device.ok_or(NO_SUCH_PORT)
}

/// Status bit 0 of all channels in the low byte, status bit 1 in the high one. A channel out of range has none.
#[inline(always)]
fn pending(room: &[Device; CHANNELS]) -> u16 {
    let mut bits = 0;
    for (channel, device) in room.iter().enumerate() {
        if device.in_range() {
            let ready = u16::from(device.interrupts());
            bits |= (ready & 1 | (ready & 2) << 7) << channel;
        }
    }
    bits
}

impl Board {
    fn is_selected(&self) -> bool {
        self.number < 4 && self.select >> 3 & 3 == self.number
    }

    /// The channel that the select names.
    #[inline(always)]
    fn selected<'a>(&self, room: &'a mut [Device; CHANNELS]) -> &'a mut Device {
        &mut room[usize::from(self.select & 7)]
    }

    #[inline]
    pub fn input(&self, room: &mut [Device], port: u8) -> u16 {
        answer(self.read(room, port))
    }

    #[inline(always)]
    fn read(&self, room: &mut [Device], port: u8) -> Result<u8, u8> {
        let room = eight(room)?;
        match port {
            6.. => Err(NO_SUCH_PORT),
            _ if !self.is_selected() => Err(NOT_SELECTED),
            4 => Ok(pending(room) as u8),
            5 => Ok((pending(room) >> 8) as u8),
            _ => Ok(self.selected(room).read(port)),
        }
    }

    /// The refusal.
    #[inline]
    pub fn output(&mut self, room: &mut [Device], port: u8, value: u8) -> u8 {
        let room = match eight(room) {
            Ok(room) => room,
            Err(refusal) => return refusal,
        };
        match port {
            6 | 8.. => return NO_SUCH_PORT,
            7 => self.select = value & 31,
            _ if !self.is_selected() => return NOT_SELECTED,
            4 => self.transmit_mask = value,
            5 => self.receive_mask = value,
            _ => return self.selected(room).write(port, value),
        }
        0
    }

    /// The refusal.
    #[inline]
    pub fn reset(&mut self, room: &mut [Device]) -> u8 {
        if room.len() != CHANNELS {
            return WRONG_ROOM;
        }
        room.fill(Device::RESET);
        (self.select, self.transmit_mask, self.receive_mask) = (0, 0, 0);
        0
    }

    /// 65536 times the refusal, plus 256 times the receive byte, plus the transmit byte.
    #[inline]
    pub fn interrupts(&self, room: &mut [Device]) -> u32 {
        let masks = u16::from_le_bytes([self.transmit_mask, self.receive_mask]);
        match eight(room) {
            Ok(room) => u32::from(pending(room) & masks),
            Err(refusal) => u32::from(refusal) << 16,
        }
    }
}

// The calls that name a channel.

/// The refusal.
#[inline]
pub fn set_pins(room: &mut [Device], channel: u8, [dsr, dcd, cts]: [u8; 3]) -> u8 {
    match named(room, channel) {
        Ok(device) => device.set_pins(dsr, dcd, cts),
        Err(refusal) => refusal,
    }
}

#[inline]
pub fn transmit(room: &mut [Device], channel: u8) -> u16 {
    answer(named(room, channel).map(Device::transmit))
}

/// The refusal.
#[inline]
pub fn receive(room: &mut [Device], channel: u8, level: u8) -> u8 {
    match named(room, channel) {
        Ok(device) => device.receive(level),
        Err(refusal) => refusal,
    }
}

#[inline]
pub fn outputs(room: &mut [Device], channel: u8) -> u16 {
    answer(named(room, channel).map(|device| device.outputs()))
}
