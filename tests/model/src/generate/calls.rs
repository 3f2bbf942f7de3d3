//! Random runs of calls for the C driver. Each run has its own turns of transmit
//! and receive ticks, apart or in one call; the levels received are frames, good
//! and damaged, short pulses and noise, or what was sent.

use super::ranges::{device, stated, tally, wrong_status};
use super::{accepted_mode, any_mode, ACCEPTED_MODES};
use crate::calls::{Call, Garbage, Lent, Line, DEVICE_BYTES};
use crate::chip::{decode, set_number, Chip, INTERNAL_RECEIVE_CLOCK};
use crate::chip::{RECEIVE_TALLY, STAMP, START, TRANSMIT_TALLY};
use crate::draw::Draws;
use crate::ranges::STATUS;
use crate::{frame, Format};
use std::collections::VecDeque;

pub const RUNS: u32 = 102;
/// A run ends with the episode that brings it over this number of lines.
const LINES: usize = 4000;
/// The kind in the seeds, behind those of the sessions.
const KIND: u32 = 4;

/// The looks at tallies and stamps (P4).
const LOOKS: [Call; 4] = [
    Call::Stamp,
    Call::Start,
    Call::TransmitTally,
    Call::ReceiveTally,
];

/// One turn of a run.
#[derive(Clone, Copy)]
enum Turn {
    /// Transmit ticks, then receive ticks.
    Apart { transmits: u32, receives: u32 },
    /// A transmit tick, then a receive tick with the level that was sent.
    ApartLooped,
    /// Both ticks in one call.
    Both,
    /// Both in one call, with the level that the turn before sent.
    BothLooped,
}

const TURNS: [Turn; 6] = [
    Turn::Apart {
        transmits: 4,
        receives: 1,
    },
    Turn::Apart {
        transmits: 1,
        receives: 4,
    },
    Turn::Apart {
        transmits: 1,
        receives: 1,
    },
    Turn::ApartLooped,
    Turn::Both,
    Turn::BothLooped,
];

/// The bytes of a device just reset that have a range: the first and the last of
/// some that are alike, and the least number that is out of range in each, alone
/// and with all above it (docs/RANGES.md).
const LEAST_OUT_OF_RANGE: [(usize, usize, u8); 14] = [
    (0, 0, 1),    // mode 1, which was not accepted
    (2, 2, 1),    // accepted, with no mode 1
    (3, 3, 64),   // the command
    (7, 7, 2),    // the mode pointer
    (8, 8, 3),    // the SYN pointer
    (9, 11, 2),   // the pins
    (12, 20, 1),  // the frame, and a character that does not wait
    (21, 21, 2),  // full
    (22, 22, 65), // the guard
    (32, 32, 2),  // the receiver's phase
    (33, 42, 1),  // the character under way
    (44, 44, 2),  // unread
    (56, 60, 2),  // the flags
    (61, 61, 1),  // the status byte
];

/// A run that is being written, and the device that it leaves.
struct Run<'a> {
    draws: &'a mut Draws,
    lines: Vec<Line>,
    lent: Lent,
    /// The levels that come on the line.
    levels: VecDeque<u8>,
    /// The level that was sent last.
    sent: u8,
}

pub fn run(index: u32) -> Vec<Line> {
    let mut draws = Draws::new(KIND, index);
    let mut run = Run {
        draws: &mut draws,
        lines: Vec::new(),
        lent: Lent::InRange(Chip::just_reset()),
        levels: VecDeque::new(),
        sent: 1,
    };
    run.each_call();
    run.stamped();
    run.statuses();
    let mut mode = index * ACCEPTED_MODES / RUNS;
    while run.lines.len() < LINES {
        run.set_up(accepted_mode(mode % ACCEPTED_MODES));
        run.episode(TURNS[index as usize % TURNS.len()]);
        mode += 1;
    }
    run.lines
}

impl Run<'_> {
    fn add(&mut self, line: Line) {
        self.lent.answer(&line);
        self.lines.push(line);
    }

    /// The numbers answered. Now and then the device is shown where a bit of its status
    /// moves.
    fn call(&mut self, call: Call) -> Vec<u32> {
        let shown = self.draws.one_in(4);
        self.call_shown(call, shown)
    }

    /// The same, where it is said whether the device is shown.
    fn call_shown(&mut self, call: Call, shown: bool) -> Vec<u32> {
        let before = self.lent.status();
        self.lines.push(Line::Call(call));
        let (_, answer) = self.lent.call(&call);
        if shown && self.lent.status() != before {
            self.add(Line::Bytes);
        }
        answer
    }

    /// One that is out of range in some way, or else any in range.
    fn device(&mut self, garbage: Option<Garbage>) {
        let bytes = match garbage {
            None => device(self.draws),
            Some(Garbage::AllOnes) => [255; DEVICE_BYTES],
            Some(Garbage::Random) => [(); DEVICE_BYTES].map(|()| self.draws.byte()),
            Some(Garbage::OneByte) => one_wrong_byte(self.draws),
            Some(Garbage::Status) => {
                let whole = device(self.draws);
                wrong_status(self.draws, &whole)
            }
        };
        self.add(Line::Device(garbage, bytes));
    }

    /// Each call as the first on a device out of range and on one in range, then the bytes,
    /// which the model knows also after a refusal and after a call that only looks, and a
    /// look at what the device is now.
    fn each_call(&mut self) {
        let level = self.draws.between(2, 255) as u8;
        let address = self.draws.between(4, 255) as u8;
        let value = self.draws.byte();
        let calls = [
            Call::Reset,
            Call::Read(self.draws.below(4) as u8),
            Call::Read(address),
            Call::Write(2, any_mode(self.draws)),
            Call::Write(self.draws.below(2) as u8, value),
            Call::Write(address, value),
            Call::Write(2, value & 63),
            Call::Write(3, value | 128),
            Call::Pins([0, 0, 0]),
            Call::Pins([0, level, 0]),
            Call::Transmit,
            Call::Receive(value & 1),
            Call::Receive(level),
            Call::Tick(value & 1),
            Call::Tick(level),
            Call::Outputs,
            Call::Peek,
            Call::InRange,
        ];
        for garbage in Garbage::ALL.map(Some).into_iter().chain([None]) {
            for call in calls.into_iter().chain(LOOKS) {
                self.device(garbage);
                self.lines.push(Line::Call(call));
                self.lent.call(&call);
                self.add(Line::Bytes);
                self.call(Call::InRange);
                self.call(Call::Outputs);
                for address in [1, 2, 2, 3, 0] {
                    self.call(Call::Read(address));
                }
            }
        }
    }

    /// The tallies and the stamps on frames of one tick a bit, each looked at behind what
    /// moves it or must leave it.
    fn stamped(&mut self) {
        self.call(Call::Reset);
        self.call(Call::Stamp);
        if self.draws.one_in(2) {
            self.tallied();
        }
        self.unheard();
        let mode1 = any_mode(self.draws) & !3 | 1;
        self.call(Call::Write(2, mode1));
        self.call(Call::Write(2, 0));
        self.call(Call::Write(3, 33));
        self.call(Call::Pins([0, 0, 0]));
        self.unheard();
        self.call(Call::Write(3, 37));
        self.call(Call::Pins([0, 1, 0]));
        self.unheard();
        self.call(Call::Pins([0, 0, 0]));
        self.hear(true);
        self.read_again();
        self.refuse();
        self.hear(false);
        self.hear(false);
        self.blink();
        self.past_the_wrap();
        self.starts();
        self.call(Call::Reset);
        for look in Call::OF_TALLIES {
            self.call(look);
        }
    }

    /// Receive ticks that nothing is heard of, and what they counted.
    fn unheard(&mut self) {
        for _ in 0..self.draws.between(1, 4) {
            let level = self.draws.below(2) as u8;
            self.call(Call::Receive(level));
        }
        self.call(Call::ReceiveTally);
    }

    /// A character, maybe behind its mark, and its stamp.
    fn hear(&mut self, mark: bool) {
        let mut levels = numbers(frame(&self.format(), self.draws.byte()));
        if mark {
            levels.insert(0, 1);
        }
        for level in levels {
            self.call(Call::Receive(level));
        }
        self.call(Call::Stamp);
    }

    /// A character before the receive tally wraps, and one in which it does so, or
    /// behind that; likewise two frames.
    fn past_the_wrap(&mut self) {
        let length = self.format().frame_length();
        let mut bytes = self.lent.settled().bytes();
        for place in [TRANSMIT_TALLY, RECEIVE_TALLY] {
            let first = length + self.draws.between(1, length);
            set_number(&mut bytes, place, u32::MAX - first);
        }
        self.add(Line::Device(None, bytes));
        self.hear(true);
        self.hear(false);
        self.call(Call::ReceiveTally);
        for _ in 0..2 {
            let value = self.draws.byte();
            self.call(Call::Write(0, value));
            (0..=length).for_each(|_| drop(self.call(Call::Transmit)));
            self.call(Call::Start);
        }
        self.call(Call::TransmitTally);
    }

    /// A frame, then mark, a break and its guard, which begin none, and what its start
    /// is behind each.
    fn starts(&mut self) {
        let value = self.draws.byte();
        self.call(Call::Write(0, value));
        for (command, most) in [(37, 1), (37, 40), (45, 3), (37, 1)] {
            self.call(Call::Write(3, command));
            self.transmits(most);
            self.call(Call::Start);
        }
    }

    // The status byte.

    /// Every bit of the status moved by each call that can move it, on frames of one tick a
    /// bit with parity, and the device behind that.
    fn statuses(&mut self) {
        for in_one_call in [false, true] {
            let mode1 = any_mode(self.draws) & !3 | 17;
            let calls = [Call::Reset, Call::Write(2, mode1), Call::Write(2, 0)];
            calls.into_iter().for_each(|call| self.move_status(call));
            self.move_status(Call::Write(3, 37));
            for levels in [[0, 1, 0], [0, 0, 0], [1, 1, 0], [0, 0, 0]] {
                self.move_status(Call::Pins(levels));
                self.move_status(Call::Read(1));
            }
            self.send(in_one_call);
            self.send(in_one_call);
            for command in [36, 37] {
                self.move_status(Call::Write(3, command));
            }
            self.hear_badly(in_one_call);
            self.move_status(Call::Read(0));
            let off = self.draws.of(&[0, 1, 32, 33]);
            for command in [53, 37, off, 37] {
                self.hear_badly(in_one_call);
                self.move_status(Call::Write(3, command));
            }
            self.hear_badly(in_one_call);
            self.move_status(Call::Pins([1, 0, 0]));
            self.move_status(Call::Pins([0, 0, 0]));
            self.move_status(Call::Reset);
        }
    }

    fn move_status(&mut self, call: Call) {
        self.call_shown(call, true);
    }

    /// A character, whose frame is sent to its end and leaves an empty-mark.
    fn send(&mut self, in_one_call: bool) {
        let value = self.draws.byte();
        self.move_status(Call::Write(0, value));
        for _ in 0..self.format().frame_length() {
            self.move_status(match in_one_call {
                true => Call::Tick(1),
                false => Call::Transmit,
            });
        }
    }

    /// A character with the other parity, and one with a stop of 0, which overruns it.
    fn hear_badly(&mut self, in_one_call: bool) {
        let format = self.format();
        let even = !format.even;
        let mut levels = vec![true];
        levels.extend(frame(&Format { even, ..format }, self.draws.byte()));
        levels.extend(frame(&format, self.draws.byte()));
        let stop = levels.len() - format.stop as usize;
        levels[stop..].fill(false);
        for level in numbers(levels) {
            self.move_status(match in_one_call {
                true => Call::Tick(level),
                false => Call::Receive(level),
            });
        }
    }

    // Set-ups and frames.

    /// Both modes, a command and low pins, after a reset, on a device out of
    /// range, or on the device as it is.
    fn set_up(&mut self, mode1: u8) {
        match self.draws.below(8) {
            0..=1 => {
                let garbage = self.draws.of(&Garbage::ALL);
                self.device(Some(garbage));
            }
            2..=5 => drop(self.call(Call::Reset)),
            _ => {}
        }
        if self.draws.one_in(3) {
            self.tallied();
        }
        self.call(Call::Read(3));
        self.call(Call::Write(2, mode1));
        let mode2 = self.draws.byte() & self.draws.of(&[15, 207, 255, 255]);
        self.call(Call::Write(2, mode2));
        let value = self.draws.byte();
        self.call(Call::Write(3, 37));
        self.call(Call::Pins([0, 0, 0]));
        // Behind a mark, so that the first frames are heard.
        self.call(Call::Transmit);
        self.call(Call::Receive(1));
        self.call(Call::Write(0, value));
        self.levels = numbers(frame(&self.format(), !value)).into();
    }

    /// The device as it is but for its tallies and stamps, which are any; most often a
    /// tally wraps soon.
    fn tallied(&mut self) {
        let mut bytes = self.lent.settled().bytes();
        for place in [START, STAMP] {
            set_number(&mut bytes, place, tally(self.draws));
        }
        for place in [TRANSMIT_TALLY, RECEIVE_TALLY] {
            let soon = u32::MAX - self.draws.below(self.format().frame_length());
            let any = tally(self.draws);
            set_number(&mut bytes, place, self.draws.of(&[soon, soon, soon, any]));
        }
        self.add(Line::Device(None, bytes));
    }

    /// The format that is received in; any where no mode is set.
    fn format(&self) -> Format {
        let view = self.lent.view();
        let internal = view.mode2 & INTERNAL_RECEIVE_CLOCK != 0;
        decode(view.mode1.unwrap_or(accepted_mode(0)), internal)
    }

    /// A few frames of turns, more of the short ones, with other calls between.
    fn episode(&mut self, turn: Turn) {
        let length = self.format().frame_length();
        let receives = match turn {
            Turn::Apart { receives, .. } => receives,
            Turn::ApartLooped | Turn::Both | Turn::BothLooped => 1,
        };
        let turns = (3 * length + 60) / receives + self.draws.below(20);
        for done in 0..turns {
            self.turn(turn);
            if self.draws.one_in(length / 3 + 2) {
                self.attend();
            }
            // The first character comes whole.
            if done * receives > length && self.draws.one_in(length + 2) {
                self.disturb();
            }
        }
        self.call(Call::Read(1));
        self.call(Call::Read(0));
    }

    fn turn(&mut self, turn: Turn) {
        match turn {
            Turn::Apart {
                transmits,
                receives,
            } => {
                (0..transmits).for_each(|_| self.transmit());
                for _ in 0..receives {
                    let level = self.level();
                    self.call(Call::Receive(level));
                }
            }
            Turn::ApartLooped => {
                self.transmit();
                self.call(Call::Receive(self.sent));
            }
            Turn::Both => {
                let level = self.level();
                self.tick(level);
            }
            Turn::BothLooped => self.tick(self.sent),
        }
    }

    fn transmit(&mut self) {
        self.sent = self.call(Call::Transmit)[0] as u8;
    }

    /// Both ticks, with a level that is not refused.
    fn tick(&mut self, level: u8) {
        self.sent = self.call(Call::Tick(level))[1] as u8;
    }

    /// The next level on the line; a new piece of the recording where it is over.
    fn level(&mut self) -> u8 {
        if self.levels.is_empty() {
            let format = self.format();
            self.levels = piece(self.draws, &format).into();
        }
        self.levels.pop_front().unwrap_or(1)
    }

    /// What a host does all the time.
    fn attend(&mut self) {
        let call = match self.draws.below(14) {
            0..=2 => Call::Write(0, self.draws.byte()),
            3..=4 => Call::Read(1),
            5 => Call::Read(0),
            6 => Call::Read(self.draws.below(5) as u8),
            7 => Call::Outputs,
            8 => Call::Peek,
            9 => Call::InRange,
            10..=12 => self.draws.of(&Call::OF_TALLIES),
            _ => Call::Tick(self.level()),
        };
        self.call(call);
    }

    /// What it does seldom, or never.
    fn disturb(&mut self) {
        let call = match self.draws.below(21) {
            0 => Call::Reset,
            1..=2 => Call::Write(2, self.draws.byte()),
            3..=4 => Call::Write(2, any_mode(self.draws)),
            5 => Call::Write(3, self.draws.byte()),
            6 => return self.end_break(),
            7 => return self.blink(),
            8 => Call::Write(3, self.draws.of(&[37, 39, 45, 53, 36, 33])),
            9..=10 => Call::Pins([(); 3].map(|()| self.draws.of(&[0, 0, 0, 1]))),
            11 => Call::Pins([(); 3].map(|()| self.draws.of(&[0, 1, 2, 255]))),
            12 => Call::Receive(self.draws.byte()),
            13 => Call::Read(self.draws.byte()),
            14 => Call::Write(self.draws.byte(), self.draws.byte()),
            15 => Call::Tick(self.draws.between(2, 255) as u8),
            16 => return self.glance(),
            17 => return self.refuse(),
            18 => return self.read_again(),
            19 => return self.tallied(),
            _ => Call::Write(1, self.draws.byte()),
        };
        self.call(call);
    }

    /// A break, and a character that its guard holds back; transmit may be off
    /// for a part of the guard.
    fn end_break(&mut self) {
        let factor = self.format().factor;
        self.call(Call::Write(3, 45));
        self.transmits(3);
        self.call(Call::Start);
        let value = self.draws.byte();
        self.call(Call::Write(0, value));
        if self.draws.one_in(2) {
            self.call(Call::Write(3, 36));
            self.transmits(factor);
        }
        self.call(Call::Write(3, 37));
        self.transmits(factor + 2);
        self.call(Call::Start);
    }

    /// One to `most` transmit ticks.
    fn transmits(&mut self, most: u32) {
        for _ in 0..self.draws.between(1, most) {
            self.call(Call::Transmit);
        }
    }

    /// A pin changes, which is seen before the status is read, and read.
    fn glance(&mut self) {
        let [dsr, dcd, cts] = self.lent.view().pins;
        self.call(Call::Pins([1 - dsr, dcd, cts]));
        for call in [Call::Peek, Call::Peek, Call::Read(1), Call::Peek] {
            self.call(call);
        }
    }

    /// Receive off and on again, most often with no tick between; RHR gives its
    /// character again, and that has its stamp.
    fn blink(&mut self) {
        self.call(Call::Write(3, 33));
        if self.draws.one_in(3) {
            let level = self.level();
            self.call(Call::Receive(level));
            self.call(Call::ReceiveTally);
        }
        self.call(Call::Write(3, 37));
        self.call(Call::Stamp);
        self.call(Call::Read(0));
        self.call(Call::Stamp);
    }

    /// A tick that is refused, between two looks at what it would have counted in.
    fn refuse(&mut self) {
        let level = self.draws.between(2, 255) as u8;
        let tick = self.draws.of(&[Call::Receive(level), Call::Tick(level)]);
        let looks = [Call::TransmitTally, Call::ReceiveTally, Call::Stamp];
        looks.into_iter().for_each(|look| drop(self.call(look)));
        self.call(tick);
        looks.into_iter().for_each(|look| drop(self.call(look)));
    }

    /// The character and its stamp, and both again.
    fn read_again(&mut self) {
        for _ in 0..2 {
            self.call(Call::Read(0));
            self.call(Call::Stamp);
        }
    }
}

/// The bytes of a device just reset, its inputs high, with any tallies, and with one
/// byte that is out of range, as often as not just so.
fn one_wrong_byte(draws: &mut Draws) -> [u8; DEVICE_BYTES] {
    let mut bytes = [0; DEVICE_BYTES];
    bytes[9..=11].fill(1);
    for place in [START, TRANSMIT_TALLY, STAMP, RECEIVE_TALLY] {
        set_number(&mut bytes, place, tally(draws));
    }
    let places: Vec<(usize, u8)> = LEAST_OUT_OF_RANGE
        .iter()
        .flat_map(|&(first, last, least)| (first..=last).map(move |place| (place, least)))
        .collect();
    let (place, least) = draws.of(&places);
    let most = draws.of(&[least, 255]);
    bytes[place] = draws.between(least.into(), most.into()) as u8;
    match place {
        STATUS => bytes,
        _ => stated(draws, bytes),
    }
}

/// A piece of a recording: mark, a good frame, a frame of the other parity, a
/// frame with one level turned over, a frame broken off, half a start bit, a long
/// space, or noise.
fn piece(draws: &mut Draws, format: &Format) -> Vec<u8> {
    let mut levels = frame(format, draws.byte());
    let length = format.frame_length();
    match draws.below(10) {
        0 => levels = vec![true; draws.between(1, 2 * format.factor) as usize],
        1..=4 => {}
        5 => {
            let even = !format.even;
            levels = frame(&Format { even, ..*format }, draws.byte());
        }
        6 => {
            let at = draws.below(length) as usize;
            levels[at] = !levels[at];
        }
        7 => levels.truncate(draws.below(length) as usize),
        8 => {
            levels = vec![false; draws.between(1, format.half() + 1) as usize];
            levels.push(true);
        }
        _ => levels = noise(draws, format),
    }
    numbers(levels)
}

fn numbers(levels: Vec<bool>) -> Vec<u8> {
    levels.into_iter().map(u8::from).collect()
}

fn noise(draws: &mut Draws, format: &Format) -> Vec<bool> {
    if draws.one_in(2) {
        return vec![false; format.frame_length() as usize + 1];
    }
    let count = draws.between(1, format.factor + 8);
    (0..count).map(|_| draws.one_in(2)).collect()
}
