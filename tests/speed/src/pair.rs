//! Two lent devices on a line, ticked in place one tick at a time, with the answers that C gets.

use crate::lent::Device;

/// Ticks of a run or a wait at the most (P9 and P12 of the change requests), and what more of them are refused with.
const MOST_TICKS: u32 = 65_535;
const TOO_MANY_TICKS: u16 = 16;
const WAITS_TOO_LONG: u32 = 21;

#[repr(C)]
#[derive(Clone, Copy, Debug, PartialEq)]
pub struct Pair {
    pub a: Device,
    pub b: Device,
}

#[derive(Clone, Copy, Debug)]
pub enum Unit {
    A,
    B,
}

impl Pair {
    pub const RESET: Pair = Pair {
        a: Device::RESET,
        b: Device::RESET,
    };

    #[inline(always)]
    pub fn device(&mut self, unit: Unit) -> &mut Device {
        match unit {
            Unit::A => &mut self.a,
            Unit::B => &mut self.b,
        }
    }

    #[inline(always)]
    fn settle(&mut self) {
        self.a.settle();
        self.b.settle();
    }

    /// A joined tick of devices in range: both transmit ticks, then each receiver takes the other's level.
    #[inline(always)]
    fn tick(&mut self) -> u16 {
        let from_a = self.a.transmit_tick();
        let from_b = self.b.transmit_tick();
        self.a.receive_tick(from_b);
        self.b.receive_tick(from_a);
        2 * u16::from(from_b) + u16::from(from_a)
    }

    /// 2 times b's level, plus a's.
    #[inline]
    pub fn joined_tick(&mut self) -> u16 {
        self.settle();
        self.tick()
    }

    /// The refusal. One of no ticks leaves devices out of range as they are.
    #[inline]
    pub fn joined_run(&mut self, n: u32) -> u16 {
        if n > MOST_TICKS {
            return TOO_MANY_TICKS;
        }
        if n > 0 {
            self.settle();
        }
        for _ in 0..n {
            self.tick();
        }
        0
    }

    /// 65536 times the refusal, plus the ticks that were done.
    #[inline]
    pub fn joined_wait(&mut self, unit: Unit, limit: u32) -> u32 {
        if limit > MOST_TICKS {
            return WAITS_TOO_LONG << 16;
        }
        if limit == 0 || self.device(unit).holds_unread() {
            return 0;
        }
        self.settle();
        let mut count = 0;
        while count < limit && !self.device(unit).holds_unread() {
            self.tick();
            count += 1;
        }
        count
    }
}
