//! The proved calls, which `pair/run` links in.

use crate::Side;
use speed::lent::Device;
use speed::pair::{Pair, Unit};

// include/ins2651.h.
extern "C" {
    fn ins2651_read(device: *mut Device, address: u8) -> u16;
    fn ins2651_write(device: *mut Device, address: u8, value: u8) -> u16;
    fn ins2651_pins(device: *mut Device, dsr: u8, dcd: u8, cts: u8) -> u16;
    fn ins2651_joined_tick(pair: *mut Pair) -> u16;
    fn ins2651_joined_run(pair: *mut Pair, n: u32) -> u16;
    fn ins2651_joined_wait(pair: *mut Pair, unit: u32, limit: u32) -> u32;
}

// SAFETY: each call reads and changes what is lent to it, for any bytes in it.

pub fn read(device: &mut Device, address: u8) -> u16 {
    unsafe { ins2651_read(device, address) }
}

pub fn write(device: &mut Device, address: u8, value: u8) -> u16 {
    unsafe { ins2651_write(device, address, value) }
}

pub fn set_pins(device: &mut Device, [dsr, dcd, cts]: [u8; 3]) -> u16 {
    unsafe { ins2651_pins(device, dsr, dcd, cts) }
}

pub fn joined_tick(pair: &mut Pair) -> u16 {
    unsafe { ins2651_joined_tick(pair) }
}

pub fn joined_run(pair: &mut Pair, n: u32) -> u16 {
    unsafe { ins2651_joined_run(pair, n) }
}

pub fn joined_wait(pair: &mut Pair, unit: Unit, limit: u32) -> u32 {
    unsafe { ins2651_joined_wait(pair, unit as u32, limit) }
}

pub struct Proved(Pair);

impl Side for Proved {
    fn just_reset() -> Proved {
        Proved(Pair::RESET)
    }

    fn read(&mut self, unit: Unit, address: u8) -> u8 {
        read(self.0.device(unit), address) as u8
    }

    fn write(&mut self, unit: Unit, address: u8, value: u8) {
        write(self.0.device(unit), address, value);
    }

    fn lower_pins(&mut self, unit: Unit) {
        set_pins(self.0.device(unit), [0; 3]);
    }

    fn tick(&mut self) -> u16 {
        joined_tick(&mut self.0)
    }

    fn run(&mut self, n: u16) {
        joined_run(&mut self.0, n.into());
    }

    fn wait(&mut self, unit: Unit, limit: u16) -> u16 {
        joined_wait(&mut self.0, unit, limit.into()) as u16
    }

    fn stamps(&mut self, unit: Unit) -> [u32; 2] {
        let device = self.0.device(unit);
        [device.stamp(), device.frame_start()]
    }
}
