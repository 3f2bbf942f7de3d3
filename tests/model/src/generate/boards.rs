//! Random runs for the board's C driver, on two boards: hostile numbers in every
//! call and field, each call done and refused in every way on a channel out of range, on
//! one whose status byte alone is wrong and on one in range, a cabinet in which both boards
//! take every select, two channels joined by a line while others are called between its
//! ticks, ticks of channels whose tallies wrap, and calls that move a channel's status. What
//! a call may have changed, and what it must have left, is looked at behind it.

use super::any_mode;
use super::ranges::{device, out_of_range, spoilt, tally, wrong_status};
use crate::board::lines::{Bench, Line, Side, PLACES};
use crate::board::{Board, Call, CHANNELS};
use crate::calls::{Lent, DEVICE_BYTES};
use crate::chip::{decode, set_number, RECEIVE_TALLY, TRANSMIT_TALLY};
use crate::draw::Draws;
use crate::frame;
use crate::pair::hearing::heard;
use crate::ranges::restated;

pub const RUNS: u32 = 160;
/// A run ends with the episode that brings it over this number of lines.
const LINES: usize = 3000;
/// The kind in the seeds, behind that of the devices.
const KIND: u32 = 6;

/// The numbers of the two boards in a cabinet: apart, alike, and above 3.
const NUMBERS: [[u8; 2]; 10] = [
    [0, 1],
    [1, 0],
    [2, 3],
    [3, 1],
    [2, 2],
    [0, 0],
    [0, 4],
    [5, 1],
    [3, 7],
    [32, 0],
];
/// Bits 7-5 of a select.
const NOT_USED: [u8; 5] = [0, 32, 64, 128, 224];

/// The byte of a wrong parity (docs/RANGES.md).
const WRONG_PARITY: usize = 35;

/// How the bytes of a device are drawn.
type Device = fn(&mut Draws) -> [u8; DEVICE_BYTES];

/// A channel of one of the boards.
#[derive(Clone, Copy, PartialEq, Eq)]
struct End {
    board: usize,
    channel: u8,
}

/// A run that is being written, and the boards that it leaves.
struct Run<'a> {
    draws: &'a mut Draws,
    lines: Vec<Line>,
    bench: Bench,
}

pub fn run(index: u32) -> Vec<Line> {
    let mut draws = Draws::new(KIND, index);
    let mut run = Run {
        draws: &mut draws,
        lines: Vec::new(),
        bench: Bench::new(Side::call),
    };
    let mut episode = index;
    while run.lines.len() < LINES {
        match episode % 8 {
            0 => run.each_call(out_of_range),
            1 => run.cabinet(),
            2 => run.joined(),
            3 => run.each_call(device),
            4 => run.tallied(),
            5 => run.each_call(wrongly_stated),
            6 => run.statuses(),
            _ => run.hostile(),
        }
        episode += 1;
    }
    run.show_all();
    run.lines
}

/// A device in range but for its status byte.
fn wrongly_stated(draws: &mut Draws) -> [u8; DEVICE_BYTES] {
    let whole = device(draws);
    wrong_status(draws, &whole)
}

/// A device whose next transmit tick begins a frame and whose next receive tick is that
/// of a stop sample, most often, maybe of a character with a wrong parity; any tallies, of
/// which some then wrap.
fn about_to_stamp(draws: &mut Draws) -> [u8; DEVICE_BYTES] {
    let mut bytes = device(draws);
    let mode1 = any_mode(draws);
    bytes[..3].copy_from_slice(&[mode1, 0, 1]);
    bytes[3] = draws.of(&[5, 5, 5, 13, 4, 1]);
    bytes[9..12].copy_from_slice(&draws.of(&[[0, 0, 0], [0, 0, 0], [0, 1, 0], [0, 0, 1]]));
    let (format, character) = (decode(mode1, false), draws.byte());
    bytes[12..23].fill(0);
    bytes[20..22].copy_from_slice(&[character, 1]);
    let levels = frame(&format, character);
    let so_far = &levels[..format.stop_sample() as usize];
    bytes[32..43].copy_from_slice(&heard(mode1, 0, so_far));
    bytes[WRONG_PARITY] = (format.parity && draws.one_in(3)).into();
    for place in [TRANSMIT_TALLY, RECEIVE_TALLY] {
        let any = tally(draws);
        set_number(&mut bytes, place, draws.of(&[u32::MAX, u32::MAX, any]));
    }
    restated(bytes)
}

impl Run<'_> {
    fn add(&mut self, line: Line) {
        self.bench.answer(&line);
        self.lines.push(line);
    }

    fn turn_to(&mut self, board: usize) {
        if self.bench.used != board {
            self.add(Line::Use(board));
        }
    }

    /// A call, and what it answers beside its refusal.
    fn make(&mut self, board: usize, call: Call) -> Vec<u8> {
        self.turn_to(board);
        self.lines.push(Line::Call(call));
        self.bench.call(&call).1
    }

    /// The same; now and then a channel is shown where a bit of its status moves.
    fn make_seen(&mut self, board: usize, call: Call) -> Vec<u8> {
        self.turn_to(board);
        let before = self.statuses_now();
        let values = self.make(board, call);
        let after = self.statuses_now();
        let moved = (0..CHANNELS).find(|&place| before[place] != after[place]);
        if let Some(channel) = moved.filter(|_| self.draws.one_in(3)) {
            self.add(Line::Bytes(channel));
        }
        values
    }

    /// The status of each channel.
    fn statuses_now(&self) -> Vec<u8> {
        let channels = self.bench.side().channels().iter();
        channels.map(Lent::status).collect()
    }

    /// A call and a look behind it.
    fn call(&mut self, board: usize, call: Call) -> Vec<u8> {
        let values = self.make_seen(board, call);
        self.look(call);
        values
    }

    /// A look at what a call may have changed, or at what it leaves.
    fn look(&mut self, call: Call) {
        let channel = match call {
            Call::In(_) | Call::Out(..) => self.bench.side().board.selected(),
            Call::Pins(channel, _) | Call::Receive(channel, _) => channel,
            Call::Transmit(channel) | Call::Outputs(channel) => channel,
            Call::Reset | Call::Interrupts => self.draws.below(CHANNELS as u32) as u8,
        };
        let touched = usize::from(channel) % PLACES;
        let other = self.draws.below(PLACES as u32) as usize;
        match self.draws.below(8) {
            0 | 1 => self.add(Line::Fields),
            2 => self.add(Line::Bytes(touched)),
            3 => self.add(Line::Bytes((touched + 1) % PLACES)),
            4 => self.add(Line::Bytes(other)),
            5 if self.draws.one_in(4) => {
                self.add(Line::Use(1 - self.bench.used));
                self.add(Line::Fields);
                self.add(Line::Bytes(touched));
            }
            _ => {}
        }
    }

    /// Both boards and both rooms.
    fn show_all(&mut self) {
        for board in [0, 1] {
            self.turn_to(board);
            self.add(Line::Fields);
            (0..PLACES).for_each(|place| self.add(Line::Bytes(place)));
        }
    }

    /// The channels that a board's calls are lent from now on.
    fn count(&mut self, board: usize, channels: usize) {
        if self.bench.sides[board].count != channels {
            self.turn_to(board);
            self.add(Line::Count(channels));
        }
    }

    /// The number and the select of a board, with any masks.
    fn set(&mut self, board: usize, number: u8, select: u8) {
        self.turn_to(board);
        let (any, some) = (self.draws.byte(), self.draws.of(&[0, 255, 82, 140]));
        let (transmit_mask, receive_mask) = (any, some);
        self.add(Line::Set(Board {
            number,
            select,
            transmit_mask,
            receive_mask,
        }));
    }

    /// Both boards take a select, with any bits that are not used.
    fn select(&mut self, user: u8) {
        let value = user | self.draws.of(&NOT_USED);
        for board in [0, 1] {
            self.call(board, Call::Out(7, value));
        }
    }

    fn number(&self, board: usize) -> u8 {
        self.bench.sides[board].board.number
    }

    /// The select of a channel, where its board can be selected.
    fn user(&self, end: End) -> u8 {
        self.number(end.board) % 4 * 8 + end.channel
    }

    fn any_end(&mut self) -> End {
        let channel = self.draws.below(CHANNELS as u32) as u8;
        let board = self.draws.below(2) as usize;
        End { board, channel }
    }

    /// A device of any bytes, most of them in range or nearly so.
    fn any_device(&mut self, board: usize, place: usize) {
        let whole = device(self.draws);
        let bytes = match self.draws.below(8) {
            0 => [(); DEVICE_BYTES].map(|()| self.draws.byte()),
            1 => spoilt(self.draws, &whole).1,
            2 => out_of_range(self.draws),
            3 | 4 => wrong_status(self.draws, &whole),
            _ => whole,
        };
        self.turn_to(board);
        self.add(Line::Device(place, bytes));
    }

    // Refusals.

    /// Each call on a channel that was set just before, and the bytes of that channel
    /// behind it: done, refused by the channel, by the port, by another board's
    /// select, and by the room.
    fn each_call(&mut self, device: Device) {
        let end = self.any_end();
        self.set(0, 0, 0);
        self.set(1, 1, 0);
        let number = self.draws.below(4) as u8;
        let user = 8 * number + end.channel;
        let select = user + self.draws.of(&NOT_USED);
        self.set(end.board, number, select);
        for call in self.calls(end) {
            self.call_on(end, device, call);
        }
        let other = (user + 8) % 32 + self.draws.of(&NOT_USED);
        self.set(end.board, number, other);
        for call in self.calls(end) {
            if let Call::In(_) | Call::Out(0..=6, _) = call {
                self.call_on(end, device, call);
            }
        }
        let select = self.draws.of(&[select, other]);
        self.set(end.board, number, select);
        let count = self.draws.of(&[0, 1, 6, 7, 7, 9, 9]);
        self.count(end.board, count);
        for call in self.calls(end) {
            self.call_on(end, device, call);
        }
        self.call_on(end, device, Call::Out(7, !select));
        self.call_on(end, device, Call::Reset);
        self.count(end.board, CHANNELS);
        self.call_on(end, device, Call::Reset);
    }

    fn call_on(&mut self, end: End, device: Device, call: Call) {
        let bytes = device(self.draws);
        self.turn_to(end.board);
        self.add(Line::Device(end.channel.into(), bytes));
        self.make(end.board, call);
        self.add(Line::Bytes(end.channel.into()));
        if let Call::Out(4.., _) | Call::Reset = call {
            self.add(Line::Fields);
        }
        self.look(call);
    }

    /// Every call on a channel, done and refused. The last one writes the select that
    /// is stored.
    fn calls(&mut self, end: End) -> Vec<Call> {
        let select = self.bench.sides[end.board].board.select;
        let above = self.draws.between(8, 255) as u8;
        // The first eight, the last eight, or any.
        let port = self.draws.of(&[above % 8 + 8, above | 248, above, above]);
        // As often as not it has the low bits of the channel.
        let alike = above & !7 | end.channel;
        let beyond = self.draws.of(&[8, above, alike, alike]);
        let (value, wrong) = (self.draws.byte(), self.draws.between(2, 255) as u8);
        let level = value % 2;
        let mut calls: Vec<Call> = (0..=7).chain([port]).map(Call::In).collect();
        for port in [0, 1, 4, 5, 6, port] {
            calls.push(Call::Out(port, value));
        }
        calls.extend([
            Call::Out(2, any_mode(self.draws)),
            Call::Out(2, value & 63 | 1),
            Call::Out(2, value & !3),
            Call::Out(3, value & 63),
            Call::Out(3, value | self.draws.of(&[64, 128])),
        ]);
        for channel in [end.channel, beyond] {
            calls.extend([
                Call::Pins(channel, [level, 0, 1]),
                Call::Pins(channel, [level, wrong, 1]),
                Call::Transmit(channel),
                Call::Receive(channel, level),
                Call::Receive(channel, wrong),
                Call::Outputs(channel),
                Call::Interrupts,
            ]);
        }
        calls.push(Call::Out(7, select));
        calls
    }

    // A cabinet.

    /// Two boards as document 000's programs use them: a user is selected on both,
    /// then both are asked, of which at most one is meant unless both have one
    /// number.
    fn cabinet(&mut self) {
        let numbers = self.draws.of(&NUMBERS);
        for board in [0, 1] {
            let select = self.draws.byte();
            self.set(board, numbers[board], select);
            for place in 0..PLACES {
                if !self.draws.one_in(4) {
                    self.any_device(board, place);
                }
            }
        }
        for _ in 0..24 {
            let end = self.any_end();
            let stray = self.draws.below(32) as u8;
            let user = self.user(end);
            let user = self.draws.of(&[user, user, user, stray]);
            self.select(user);
            for _ in 0..self.draws.between(1, 4) {
                let call = self.asked();
                for board in [0, 1] {
                    self.call(board, call);
                }
            }
        }
    }

    /// What a program asks of the selected user, and of its board.
    fn asked(&mut self) -> Call {
        let value = self.draws.byte();
        match self.draws.below(12) {
            0 => Call::In(1),
            1 => Call::In(0),
            2 | 3 => Call::In(4),
            4 | 5 => Call::In(5),
            6 => Call::Interrupts,
            7 => Call::Out(4, value),
            8 => Call::Out(5, value),
            9 => Call::Out(0, value),
            10 => Call::Out(3, value & 63 | 5),
            _ => Call::Outputs(value % 8),
        }
    }

    // Tallies.

    /// Ticks of channels at which a frame begins, a character ends and a tally wraps,
    /// and the resets of such channels, done and refused.
    fn tallied(&mut self) {
        self.set(0, 0, 0);
        self.set(1, 1, 8);
        for _ in 0..20 {
            let end = self.any_end();
            let wrong = self.draws.between(2, 255) as u8;
            let channel = self.draws.of(&[end.channel, end.channel, end.channel | 8]);
            let call = match self.draws.below(8) {
                0..=2 => Call::Transmit(channel),
                3..=5 => Call::Receive(channel, self.draws.of(&[1, 1, 0])),
                6 => Call::Receive(channel, wrong),
                _ => Call::Reset,
            };
            let channels = self.draws.of(&[CHANNELS, CHANNELS, CHANNELS, 7]);
            self.count(end.board, channels);
            self.call_on(end, about_to_stamp, call);
            self.count(end.board, CHANNELS);
        }
    }

    // The status byte.

    /// Calls that move bits of a channel's status, and the channel behind each.
    fn statuses(&mut self) {
        for _ in 0..20 {
            let end = self.any_end();
            let number = self.draws.below(4) as u8;
            self.set(end.board, number, 8 * number + end.channel);
            let value = self.draws.byte();
            let levels = [(); 3].map(|()| self.draws.below(2) as u8);
            let call = match self.draws.below(8) {
                0 => Call::In(0),
                1 => Call::In(1),
                2 => Call::Out(0, value),
                3 | 4 => Call::Out(3, value & 63),
                5 | 6 => Call::Pins(end.channel, levels),
                _ => Call::Reset,
            };
            self.call_on(end, device, call);
        }
    }

    // Two channels on a line.

    fn joined(&mut self) {
        let pair = self.draws.of(&NUMBERS[..6]);
        for board in [0, 1] {
            let select = self.draws.byte();
            self.set(board, pair[board], select);
        }
        let near = self.any_end();
        let mut far = self.any_end();
        while far == near {
            far = self.any_end();
        }
        let ends = [near, far];
        // One tick a bit, most often: the frames are short then.
        let mode1 = any_mode(self.draws) & !3 | 1;
        let mode2 = self.draws.of(&[0, 0, 0, 48]);
        for end in ends {
            self.set_up(end, mode1, mode2);
        }
        self.joined_tick(ends);
        let length = decode(mode1, mode2 != 0).frame_length();
        for _ in 0..2 * length + 60 {
            if self.draws.one_in(length / 6 + 3) {
                let end = self.draws.of(&ends);
                self.attend(end);
            }
            if self.draws.one_in(6) {
                self.meddle(ends);
            }
            self.joined_tick(ends);
        }
        ends.into_iter().for_each(|end| self.attend(end));
    }

    /// Both modes and a command by the ports, and low pins.
    fn set_up(&mut self, end: End, mode1: u8, mode2: u8) {
        if self.draws.one_in(3) {
            self.any_device(end.board, end.channel.into());
        }
        let user = self.user(end);
        self.select(user);
        let calls = [
            Call::In(3),
            Call::Out(2, mode1),
            Call::Out(2, mode2),
            Call::Out(3, 53),
            Call::Pins(end.channel, [0, 0, 0]),
            Call::In(0),
        ];
        for call in calls {
            self.call(end.board, call);
        }
    }

    /// Both transmit ticks, then both receive ticks with the other's level.
    fn joined_tick(&mut self, [a, b]: [End; 2]) {
        let from_a = self.make_seen(a.board, Call::Transmit(a.channel))[0];
        let from_b = self.make_seen(b.board, Call::Transmit(b.channel))[0];
        self.make_seen(b.board, Call::Receive(b.channel, from_a));
        let last = Call::Receive(a.channel, from_b);
        self.make_seen(a.board, last);
        if self.draws.one_in(4) {
            self.look(last);
        }
    }

    /// A channel is selected and asked; it is written where it may be, and read
    /// where it holds a character.
    fn attend(&mut self, end: End) {
        let user = self.user(end);
        self.select(user);
        let port = self.draws.of(&[1, 1, 4, 5]);
        self.call(end.board, Call::In(port));
        let status = self.call(end.board, Call::In(1))[0];
        if status & 1 != 0 {
            let value = self.draws.byte();
            self.call(end.board, Call::Out(0, value));
        }
        if status & 2 != 0 {
            self.call(end.board, Call::Interrupts);
            self.call(end.board, Call::In(0));
        }
    }

    /// What may come between the ticks of a line: calls on other channels, selects,
    /// masks, and calls that are refused.
    fn meddle(&mut self, ends: [End; 2]) {
        let mut other = self.any_end();
        while ends.contains(&other) {
            other = self.any_end();
        }
        let End { board, channel } = other;
        let (value, level) = (self.draws.byte(), self.draws.below(2) as u8);
        let call = match self.draws.below(12) {
            0 => Call::Transmit(channel),
            1 => Call::Receive(channel, level),
            2 => Call::Pins(channel, [level, 0, 0]),
            3 => Call::Outputs(channel),
            4 => Call::Interrupts,
            5 => return self.select(value),
            6 => return self.any_device(board, channel.into()),
            7 => self
                .draws
                .of(&[Call::In(6), Call::In(7), Call::Out(6, value)]),
            8 => Call::Transmit(value | 8),
            9 => Call::Receive(value | 8, level),
            _ => return self.ask_other(other, value),
        };
        self.call(board, call);
    }

    /// A port of another channel, or one of a board that is not selected.
    fn ask_other(&mut self, other: End, value: u8) {
        let user = self.user(other) ^ self.draws.of(&[0, 0, 8, 16]);
        self.select(user);
        let port = self.draws.below(6) as u8;
        let call = self.draws.of(&[Call::In(port), Call::Out(port, value)]);
        self.call(other.board, call);
    }

    // Any numbers.

    fn hostile(&mut self) {
        for _ in 0..120 {
            let board = self.draws.below(2) as usize;
            if self.draws.one_in(10) {
                let number = self.hostile_number();
                let any = self.draws.byte();
                let meant = number % 4 * 8 + any % 8 + self.draws.of(&NOT_USED);
                let select = self.draws.of(&[any, meant, meant]);
                self.set(board, number, select);
            }
            if self.draws.one_in(8) {
                let count = self.draws.between(0, PLACES as u32) as usize;
                self.count(board, count);
            } else if self.draws.one_in(4) {
                self.count(board, CHANNELS);
            }
            if self.draws.one_in(6) {
                let place = self.draws.below(PLACES as u32) as usize;
                self.any_device(board, place);
            }
            let call = self.hostile_call(board);
            self.call(board, call);
        }
        for board in [0, 1] {
            self.count(board, CHANNELS);
        }
    }

    fn hostile_number(&mut self) -> u8 {
        let any = self.draws.byte();
        let low = any % 4;
        self.draws.of(&[low, low, low, low + 4, low + 32, any])
    }

    /// A port or a channel.
    fn hostile_place(&mut self) -> u8 {
        let any = self.draws.byte();
        let low = any % 8;
        self.draws
            .of(&[low, low, low, low, low, low, low, 8, low | 8, any])
    }

    fn hostile_level(&mut self) -> u8 {
        let any = self.draws.byte();
        self.draws.of(&[any % 2, any % 2, any % 2, any % 2, any])
    }

    fn hostile_call(&mut self, board: usize) -> Call {
        let place = self.hostile_place();
        match self.draws.below(16) {
            0..=3 => Call::In(place),
            4..=7 => Call::Out(place, self.hostile_value(board, place)),
            8 => Call::Reset,
            9..=10 => Call::Pins(place, [(); 3].map(|()| self.hostile_level())),
            11 => Call::Transmit(place),
            12..=13 => Call::Receive(place, self.hostile_level()),
            14 => Call::Outputs(place),
            _ => Call::Interrupts,
        }
    }

    fn hostile_value(&mut self, board: usize, port: u8) -> u8 {
        let any = self.draws.byte();
        match port {
            2 => self.draws.of(&[any, any | 65]),
            3 => self.draws.of(&[any, any & 63, 37]),
            7 => {
                let meant = self.number(board) % 4 * 8 + any % 8;
                self.draws.of(&[any, meant, meant + 32, meant + 224])
            }
            _ => any,
        }
    }
}
