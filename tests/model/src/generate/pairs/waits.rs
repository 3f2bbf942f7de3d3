//! Runs of waits for a character: at the ends of a line, up to the tick with which one
//! comes, before it and behind it, with every kind of limit on devices in range and out
//! of it, on a bench that is set up by calls, and in long silence. The whole pair is
//! looked at behind each wait.

use super::{ends, Run, BREAKING, ON};
use crate::calls::{Call as ChipCall, DEVICE_BYTES};
use crate::generate::ranges::{device, spoilt};
use crate::pair::lines::Line;
use crate::pair::Call;
use crate::ranges::{meant_status, wrong_bits, STATUS};
use crate::session::{other, Unit, UNITS};
use crate::wait::WAIT_LIMIT;

/// The byte that says whether a character is unread (docs/RANGES.md).
const UNREAD: usize = 44;
/// The ticks within which it is looked for when a character comes.
const SOON: u32 = 800;

/// Says whether a character is unread; the status byte stays as right, or as wrong, as it is.
fn mark(bytes: &mut [u8; DEVICE_BYTES], unread: bool) {
    let wrong = wrong_bits(bytes);
    bytes[UNREAD] = unread.into();
    bytes[STATUS] = meant_status(bytes) ^ wrong;
}

impl Run<'_> {
    pub fn wait_episode(&mut self, episode: u32) {
        match episode % 8 {
            0 | 1 => self.wait_limits(),
            2 => self.wait_on_any_devices(),
            3 => self.wait_in_silence(),
            4 | 5 => self.wait_on_a_bench(),
            _ => self.wait_on_a_line(),
        }
    }

    /// A wait, and the pair that it leaves.
    fn wait(&mut self, unit: Unit, limit: u32) {
        let any = self.draws.between(2, u32::MAX);
        let number = match unit {
            Unit::A => 0,
            Unit::B => self
                .draws
                .of(&[1, 1, 1, 2, 255, 256, 65_536, u32::MAX, any]),
        };
        self.call(Call::Wait(number, limit));
        self.lines.push(Line::Bytes);
    }

    /// A limit above the highest: just above, any, or one whose low 16 bits would do.
    fn too_high(&mut self) -> u32 {
        let above = self.draws.between(1, 65_535) << 16;
        let few = self.draws.between(1, 999);
        let five_digits = self.draws.between(WAIT_LIMIT + 1, 99_999);
        let any = self.draws.between(WAIT_LIMIT + 1, u32::MAX);
        let all = [above, above + few, five_digits, any];
        self.draws.of(&[
            WAIT_LIMIT + 1,
            99_999,
            u32::MAX,
            all[0],
            all[1],
            all[2],
            all[3],
        ])
    }

    /// A limit about the tick with which a character comes; or any.
    fn limit(&mut self, unit: Unit) -> u32 {
        match self.draws.below(16) {
            0 => 0,
            1 => self.too_high(),
            2 => self.draws.between(1, 8),
            3 | 4 => self.draws.between(1, 1200),
            _ => self.limit_by_arrival(unit),
        }
    }

    fn limit_by_arrival(&mut self, unit: Unit) -> u32 {
        let comes = self.pair.clone().wait(unit, SOON);
        let comes = comes.map_or(SOON, u32::from);
        match comes {
            0 => self.draws.between(1, WAIT_LIMIT),
            // A long one is dear where nothing comes.
            1..SOON if self.draws.one_in(5) => WAIT_LIMIT - self.draws.of(&[0, 0, 1, 40_000]),
            _ => comes + self.draws.of(&[0, 1, 1, 2]) - 1,
        }
    }

    fn wait_at(&mut self, unit: Unit) {
        let limit = self.limit(unit);
        self.wait(unit, limit);
    }

    // Ends of a line.

    fn wait_on_a_line(&mut self) {
        for _ in 0..32 {
            let unit = self.draws.of(&UNITS);
            let mut both = ends::ends(self.draws);
            // A receiver that waits for a 1, maybe within a frame.
            if self.draws.one_in(4) {
                both[unit as usize][32..43].fill(0);
            }
            self.set_unread(both, unit);
            for _ in 0..self.draws.of(&[1, 1, 2, 3]) {
                self.wait_at(unit);
                if self.draws.one_in(2) {
                    self.on(unit, ChipCall::Read(0));
                }
            }
        }
    }

    /// Two devices, of which the one that is waited on seldom holds a character: such a
    /// wait is soon over.
    fn set_unread(&mut self, mut both: [[u8; DEVICE_BYTES]; 2], unit: Unit) {
        mark(&mut both[unit as usize], self.draws.one_in(5));
        mark(&mut both[other(unit) as usize], self.draws.one_in(2));
        self.set(both);
    }

    // Any devices, any limits.

    /// Most often in range, though hardly in step.
    fn wait_on_any_devices(&mut self) {
        for _ in 0..24 {
            let unit = self.draws.of(&UNITS);
            let mut both = [(); 2].map(|()| device(self.draws));
            if self.draws.one_in(4) {
                let end = self.draws.below(2) as usize;
                both[end] = spoilt(self.draws, &both[end]).1;
            }
            self.set_unread(both, unit);
            self.wait_at(unit);
        }
    }

    /// Each kind of limit on devices of which none, one or both are out of range.
    fn wait_limits(&mut self) {
        for (out, unit) in (0..8).map(|place| (place / 2, UNITS[place as usize % 2])) {
            let few = self.draws.between(1, 999);
            for limit in [0, few, self.too_high()] {
                self.set_marked_ranges(out);
                self.wait(unit, limit);
            }
            // While the other alone is out of range a character may be there, or come.
            let times = if out == 1 << other(unit) as u32 { 6 } else { 2 };
            for _ in 0..times {
                self.set_marked_ranges(out);
                self.wait_at(unit);
            }
        }
    }

    /// The ends of a line, with those out of range that the bits say: they hold no
    /// character, though they may be marked so.
    fn set_marked_ranges(&mut self, out: u32) {
        let mut both = ends::ends(self.draws);
        for (end, bytes) in both.iter_mut().enumerate() {
            let is_out = out >> end & 1 == 1;
            mark(bytes, self.draws.one_in(if is_out { 2 } else { 4 }));
            if is_out {
                *bytes = self.spoilt_end(*bytes);
            }
        }
        self.set(both);
    }

    // A bench, and silence.

    fn wait_on_a_bench(&mut self) {
        for step in 0..18 {
            // What was switched off or has another mode soon brings nothing more.
            if step % 6 == 0 {
                self.set_up_bench();
            }
            let unit = self.draws.of(&UNITS);
            match self.draws.below(3) {
                0 => self.break_before(unit),
                _ => self.act(unit),
            }
            let there = other(unit);
            let waits = self.draws.of(&[unit, there, there, there]);
            self.wait_at(waits);
            self.look(waits);
        }
    }

    /// A break of some ticks, most often a false start, and a character behind it.
    fn break_before(&mut self, unit: Unit) {
        let format = self.pair.end(unit).view().sends();
        let half = format.map_or(8, |format| format.half().max(1));
        let (about, any) = (self.draws.between(1, half), self.draws.between(1, 40));
        self.on(unit, ChipCall::Write(3, BREAKING));
        let ticks = self.draws.of(&[about, about, any]);
        self.run(ticks);
        self.on(other(unit), ChipCall::Read(0));
        let value = self.draws.byte();
        self.on(unit, ChipCall::Write(0, value));
        self.on(unit, ChipCall::Write(3, ON));
    }

    /// Long ones, on ends that soon do nothing more. One of 65,535 is dear.
    fn wait_in_silence(&mut self) {
        let unit = self.draws.of(&UNITS);
        for _ in 0..4 {
            let both = ends::silent(self.draws);
            self.set_unread(both, unit);
            let limit = self.draws.between(1000, 2000);
            self.wait(unit, limit);
        }
        if self.draws.one_in(2) {
            self.on(unit, ChipCall::Read(0));
            let less = self.draws.of(&[0, 0, 0, 50_000]);
            self.wait(unit, WAIT_LIMIT - less);
        }
        // Nothing moves any more, and a limit that is too high is refused all the same.
        let limit = self.too_high();
        self.wait(unit, limit);
    }
}
