//! Two lent devices joined by a line, call by call: the joined tick of document 01,
//! the run of many of P9 of the change requests and the wait of P12, and the chip's own
//! calls at either end.
//!
//! `lines` is the text of the pair's C driver, `hearing` the receiver that some levels
//! make, `reach` what random runs reached.

pub mod hearing;
pub mod lines;
pub mod reach;

use crate::calls::{Call as ChipCall, Lent};
use crate::chip::{joined_tick, Chip};
use crate::session::{Unit, UNITS};
use crate::wait::wait;

/// The most joined ticks of a run.
pub const RUN_LIMIT: u32 = 65_535;
/// P9's refusal.
pub const RUN_TOO_LONG: u8 = 16;

#[derive(Clone, Copy, Debug, PartialEq, Eq)]
pub enum Call {
    /// A joined tick.
    Tick,
    /// So many of them.
    Run(u32),
    /// A wait for a character: the number of its unit, and its limit.
    Wait(u32, u32),
    /// A call of the chip at one end.
    On(Unit, ChipCall),
}

/// The refusal, and the numbers that the driver answers.
pub type Answer = (u8, Vec<u32>);

/// The unit that a wait names: 0 is a, any other number b.
pub fn named(number: u32) -> Unit {
    match number {
        0 => Unit::A,
        _ => Unit::B,
    }
}

#[derive(Clone, Debug, PartialEq, Eq)]
pub struct Pair {
    pub a: Lent,
    pub b: Lent,
}

impl Pair {
    pub fn just_reset() -> Pair {
        let reset = Lent::InRange(Chip::just_reset());
        Pair {
            a: reset.clone(),
            b: reset,
        }
    }

    pub fn end(&self, unit: Unit) -> &Lent {
        match unit {
            Unit::A => &self.a,
            Unit::B => &self.b,
        }
    }

    pub fn end_mut(&mut self, unit: Unit) -> &mut Lent {
        match unit {
            Unit::A => &mut self.a,
            Unit::B => &mut self.b,
        }
    }

    /// The levels sent, first a's. Each device that is out of range is taken as one
    /// just reset, and no other ("Refusal numbers").
    pub fn tick(&mut self) -> [u8; 2] {
        joined_tick(self.a.settled(), self.b.settled())
    }

    /// The refusal of so many joined ticks. None of them at all leaves the pair.
    pub fn run(&mut self, ticks: u32) -> u8 {
        if ticks > RUN_LIMIT {
            return RUN_TOO_LONG;
        }
        for _ in 0..ticks {
            self.tick();
        }
        0
    }

    /// The joined ticks of a wait, or its refusal. Where it spends none it leaves the
    /// pair, as a run of none does.
    pub fn wait(&mut self, unit: Unit, limit: u32) -> Result<u16, u8> {
        let holds = |pair: &Pair| pair.end(unit).holds_unread();
        wait(self, limit, holds, |pair| {
            pair.tick();
        })
    }

    /// Whether a joined tick moves nothing but the tallies.
    pub fn stands(&self) -> bool {
        let mut after = self.clone();
        after.tick();
        let untallied = |pair: &Pair| UNITS.map(|unit| pair.end(unit).untallied());
        untallied(&after) == untallied(self)
    }

    pub fn call(&mut self, call: &Call) -> Answer {
        match *call {
            Call::Tick => {
                let [from_a, from_b] = self.tick();
                (0, vec![(2 * from_b + from_a).into()])
            }
            Call::Run(ticks) => {
                let refusal = self.run(ticks);
                (refusal, vec![refusal.into()])
            }
            Call::Wait(number, limit) => match self.wait(named(number), limit) {
                Ok(spent) => (0, vec![0, spent.into()]),
                Err(refusal) => (refusal, vec![refusal.into(), 0]),
            },
            Call::On(unit, call) => self.end_mut(unit).call(&call),
        }
    }
}
