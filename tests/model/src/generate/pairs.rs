//! Random runs for the pair's C driver: two ends of a line in step, nearly so and not
//! at all, any two devices, every length of a run on devices in range and out of it, a
//! bench that is set up by calls, and long silence. The whole pair is looked at behind
//! each run, and behind most ticks. `waits` has the runs of waits.

mod ends;
mod waits;

use super::any_mode;
use super::ranges::{device, out_of_range, spoilt, stated, wrong_status};
use crate::calls::{Call as ChipCall, Lent, DEVICE_BYTES};
use crate::chip::View;
use crate::draw::Draws;
use crate::pair::lines::Line;
use crate::pair::{Answer, Call, Pair, RUN_LIMIT};
use crate::session::{other, Unit, UNITS};

pub const RUNS: u32 = 140;
/// The runs of waits, whose seeds come behind those.
pub const WAIT_RUNS: u32 = 72;
/// A run ends with the episode that brings it over this number of lines.
const LINES: usize = 800;
/// The kind in the seeds, behind that of the boards.
const KIND: u32 = 7;

/// Transmit and receive on, and so with a break.
const ON: u8 = 5;
const BREAKING: u8 = 13;
const TRANSMIT_ALONE: u8 = 1;
const RECEIVE_ALONE: u8 = 4;

/// A run that is being written, and the pair that it leaves.
struct Run<'a> {
    draws: &'a mut Draws,
    lines: Vec<Line>,
    pair: Pair,
}

pub fn run(index: u32) -> Vec<Line> {
    let mut draws = Draws::new(KIND, index);
    let mut run = Run {
        draws: &mut draws,
        lines: Vec::new(),
        pair: Pair::just_reset(),
    };
    let mut episode = index;
    while run.lines.len() < LINES {
        match index < RUNS {
            true => run.episode(episode),
            false => run.wait_episode(episode),
        }
        episode += 1;
    }
    run.lines
}

impl Run<'_> {
    fn episode(&mut self, episode: u32) {
        match episode % 12 {
            0 => self.any_devices(),
            1 => self.lengths(),
            2 | 3 => self.bench(),
            4 => self.silence(),
            _ => self.on_a_line(),
        }
    }

    fn call(&mut self, call: Call) -> Answer {
        self.lines.push(Line::Call(call));
        self.pair.call(&call)
    }

    /// A run, and the pair that it leaves.
    fn run(&mut self, ticks: u32) {
        self.call(Call::Run(ticks));
        self.lines.push(Line::Bytes);
    }

    /// A tick, and most often the pair that it leaves.
    fn tick(&mut self) {
        self.call(Call::Tick);
        if !self.draws.one_in(4) {
            self.lines.push(Line::Bytes);
        }
    }

    fn on(&mut self, unit: Unit, call: ChipCall) -> Vec<u32> {
        self.call(Call::On(unit, call)).1
    }

    fn set(&mut self, both: [[u8; DEVICE_BYTES]; 2]) {
        for (unit, bytes) in UNITS.into_iter().zip(both) {
            *self.pair.end_mut(unit) = Lent::of_bytes(bytes);
            self.lines.push(Line::Device(unit, bytes));
        }
    }

    // Ends of a line.

    fn on_a_line(&mut self) {
        for _ in 0..32 {
            let both = ends::ends(self.draws);
            self.set(both);
            for _ in 0..self.draws.of(&[1, 1, 2, 3]) {
                let ticks = self.ticks();
                self.run(ticks);
            }
            if self.draws.one_in(4) {
                self.tick();
                self.tick();
            }
            if self.draws.one_in(2) {
                self.tick_behind_a_run();
            }
        }
    }

    /// A tick in which something may happen, alone.
    fn tick_behind_a_run(&mut self) {
        let ticks = self.ticks();
        if ticks > 1 {
            self.run(ticks - 1);
        }
        self.tick();
    }

    /// Up to something that happens on a way, or the tick before or behind it; or
    /// any number.
    fn ticks(&mut self) -> u32 {
        let from = self.draws.of(&UNITS);
        let views = [from, other(from)].map(|unit| self.pair.end(unit).view());
        let event = self.draws.of(&events(&views[0], &views[1]));
        let beside = (event + self.draws.of(&[0, 1, 1, 2])).saturating_sub(1);
        let any = self.draws.between(1, 1600);
        self.draws.of(&[beside, beside, beside, beside, any])
    }

    /// Long ones, on ends that soon do nothing more. One of 65,535 is dear.
    fn silence(&mut self) {
        for _ in 0..4 {
            let both = ends::silent(self.draws);
            self.set(both);
            let ticks = self.draws.between(1000, 3000);
            self.run(ticks);
        }
        if self.draws.one_in(2) {
            let both = ends::ends(self.draws);
            self.set(both);
        }
        let long = self.draws.between(3000, RUN_LIMIT);
        let ticks = self.draws.of(&[RUN_LIMIT, RUN_LIMIT, long]);
        self.run(ticks);
        // Nothing moves any more, and a run that is too long is refused all the same.
        let above = self.draws.between(RUN_LIMIT + 1, u32::MAX);
        let ticks = self.draws.of(&[RUN_LIMIT + 1, u32::MAX, above]);
        self.run(ticks);
    }

    // Any devices, any lengths.

    /// Most often in range, though hardly in step.
    fn any_devices(&mut self) {
        for _ in 0..24 {
            let both = [(); 2].map(|()| {
                let whole = device(self.draws);
                match self.draws.below(6) {
                    0 => [(); DEVICE_BYTES].map(|()| self.draws.byte()),
                    1 => spoilt(self.draws, &whole).1,
                    _ => whole,
                }
            });
            self.set(both);
            if self.draws.one_in(3) {
                self.tick();
            }
            let ticks = self.ticks();
            self.run(ticks);
        }
    }

    /// Each kind of length on devices of which none, one or both are out of range.
    fn lengths(&mut self) {
        let few = self.draws.between(1, 999);
        let above = self.draws.between(1, 65_535) << 16;
        let any = self.draws.between(RUN_LIMIT + 1, u32::MAX - 1);
        let lengths = [0, 1, few, RUN_LIMIT + 1, above, above + few, any, u32::MAX];
        for out in 0..4 {
            for ticks in lengths.into_iter().chain([0]) {
                self.set_ranges(out);
                self.run(ticks);
            }
            for _ in 0..2 {
                self.set_ranges(out);
                self.tick();
            }
        }
        let out = self.draws.below(4);
        self.set_ranges(out);
        self.run(RUN_LIMIT);
    }

    /// The ends of a line, with those out of range that the bits say.
    fn set_ranges(&mut self, out: u32) {
        let mut both = ends::ends(self.draws);
        for (end, bytes) in both.iter_mut().enumerate() {
            if out >> end & 1 == 1 {
                *bytes = self.spoilt_end(*bytes);
            }
        }
        self.set(both);
    }

    /// An end that would go on if its one wrong byte were not looked at, as often as not the
    /// status byte, or bytes that are no end at all.
    fn spoilt_end(&mut self, bytes: [u8; DEVICE_BYTES]) -> [u8; DEVICE_BYTES] {
        if self.draws.one_in(3) {
            return out_of_range(self.draws);
        }
        if self.draws.one_in(2) {
            return wrong_status(self.draws, &bytes);
        }
        let mut bytes = bytes;
        // The mode pointer, the SYN pointer, DSR, a flag or a mark.
        let place = self.draws.of(&[7, 8, 9, 56, 57, 58, 59, 60]);
        bytes[place] = self.draws.between(3, 255) as u8;
        stated(self.draws, bytes)
    }

    // A bench.

    fn bench(&mut self) {
        self.set_up_bench();
        for _ in 0..16 {
            let unit = self.draws.of(&UNITS);
            self.act(unit);
            let ticks = self.ticks();
            self.run(ticks);
            let looked_at = self.draws.of(&UNITS);
            self.look(looked_at);
        }
    }

    fn set_up_bench(&mut self) {
        let modes = ends::modes(self.draws);
        for (unit, modes) in UNITS.into_iter().zip(modes) {
            let further = self.draws.byte() & 34;
            for call in [
                ChipCall::Reset,
                ChipCall::Write(2, modes.mode1),
                ChipCall::Write(2, modes.mode2),
                ChipCall::Write(3, ON | further),
                ChipCall::Pins([0, 0, 0]),
            ] {
                self.on(unit, call);
            }
        }
        self.tick();
    }

    /// What is done between two runs: most often a character is written.
    fn act(&mut self, unit: Unit) {
        let value = self.draws.byte();
        let call = match self.draws.below(16) {
            0..=5 => ChipCall::Write(0, value),
            6 => return UNITS.into_iter().for_each(|unit| self.fill(unit)),
            7 => ChipCall::Write(3, BREAKING),
            8..=9 => ChipCall::Write(3, ON),
            10 => ChipCall::Write(3, self.draws.of(&[TRANSMIT_ALONE, RECEIVE_ALONE])),
            11 => ChipCall::Pins(self.draws.of(&[[0, 1, 0], [0, 0, 1], [1, 0, 0], [2, 0, 0]])),
            12 => ChipCall::Pins([0, 0, 0]),
            13 => return self.write_mode(unit),
            14 => ChipCall::Write(3, ON | 16),
            _ => self.draws.of(&[
                ChipCall::Reset,
                ChipCall::Write(4, value),
                ChipCall::Write(3, 64),
            ]),
        };
        self.on(unit, call);
    }

    /// A character under way, and one waiting.
    fn fill(&mut self, unit: Unit) {
        for _ in 0..2 {
            let value = self.draws.byte();
            self.on(unit, ChipCall::Write(0, value));
            self.run(1);
        }
    }

    /// Another mode 1; the command read puts the pointer back.
    fn write_mode(&mut self, unit: Unit) {
        let mode1 = any_mode(self.draws);
        self.on(unit, ChipCall::Read(3));
        self.on(unit, ChipCall::Write(2, mode1));
    }

    /// The status, and what has come, where something has; now and then a tally, or
    /// what it stamped.
    fn look(&mut self, unit: Unit) {
        if self.draws.one_in(4) {
            let look = self.draws.of(&ChipCall::OF_TALLIES);
            self.on(unit, look);
        }
        let status = self.on(unit, ChipCall::Read(1))[1];
        if status & 2 != 0 && !self.draws.one_in(3) {
            self.on(unit, ChipCall::Read(0));
        }
    }
}

/// When something happens on a way, in ticks from now: what is under way ends, or what
/// waits begins, arrives and ends.
fn events(from: &View, to: &View) -> Vec<u32> {
    let mut all = vec![1, 1 + from.guard];
    let mut begins = 1 + from.guard;
    if let Some((format, place)) = from.frame {
        begins = format.frame_length() - place as u32 + 1;
        all.extend([begins - 1; 2]);
    }
    if let Some((format, heard)) = to.hearing {
        let heard = heard as u32;
        let look = (heard + format.factor - format.half()) % format.factor;
        let look = (format.factor - look) % format.factor + 1;
        // The look at the start is where it may be a false one.
        let times = if heard <= format.half() { 6 } else { 1 };
        all.extend(vec![look; times]);
        all.extend([format.stop_sample() + 1 - heard; 3]);
    }
    if let Some(format) = from.sends().filter(|_| from.waiting) {
        let (arrives, ends) = (format.stop_sample(), format.frame_length() - 1);
        all.extend([begins, begins + arrives, begins + arrives, begins + ends]);
    }
    all
}
