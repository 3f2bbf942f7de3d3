//! What the random runs of boards reached, counted by name on the model. A run in
//! which one of its counts stays small has not tested what it is for.

mod interrupts;
mod refused;
mod tallies;

pub use interrupts::own_bits;
pub use refused::{goes_nowhere, granted, needs_a_select};

use super::lines::{Bench, Line, Side};
use super::{Board, Call, CHANNELS, NOT_SELECTED, NO_SUCH_PORT, WRONG_ROOM};
use crate::calls::{Call as ChipCall, Lent};
use crate::chip::Chip;
use crate::counts::Counts;
use crate::reach::status;
use crate::Format;
use std::process::ExitCode;

/// The calls by the refusals that each can have.
const REFUSALS: [(&str, &[u8]); 8] = [
    ("in", &[10, 8, 9]),
    ("out", &[10, 8, 9, 3, 4, 5]),
    ("reset", &[10]),
    ("pins", &[10, 8, 2]),
    ("transmit", &[10, 8]),
    ("receive", &[10, 8, 2]),
    ("outputs", &[10, 8]),
    ("interrupts", &[10]),
];

/// Two refusals that stand for one call: the first one is given.
const BOTH: [(u8, u8); 10] = [
    (10, 8),
    (10, 9),
    (10, 2),
    (10, 3),
    (10, 4),
    (10, 5),
    (8, 2),
    (9, 3),
    (9, 4),
    (9, 5),
];

/// The calls on one channel.
const ON_CHANNELS: [&str; 6] = ["in", "out", "pins", "transmit", "receive", "outputs"];

/// Further names.
const OF_BOARDS: [&str; 20] = [
    "port 6 read",
    "port 6 written",
    "port 7 read",
    "port above 7 read",
    "port above 7 written",
    "port above 5 refused while another board is selected",
    "select written with bits 7-5",
    "select written to a board that is not selected",
    "select written to a board above 3",
    "stored select with bits 7-5, selected",
    "stored select with bits 7-5, not selected",
    "board above 3 whose low bits are selected",
    "one of the two boards selected",
    "both boards selected",
    "no board selected",
    "reset with both masks set",
    "reset with a select",
    "reset of a board that is not selected",
    "arrival on a line of one board",
    "arrival on a line of two boards",
];

/// Calls that come while a character is on its way to some channel.
const INSIDE: [&str; 4] = [
    "select",
    "refusal 8",
    "refusal 9",
    "call on another channel",
];

/// The calls so far: the board, and the first value answered.
type Ticks = Vec<(usize, Call, u8)>;

/// A call of the run, for what is shown behind it.
struct Made {
    used: usize,
    before: Side,
    call: Call,
    refusal: u8,
}

pub struct Reach {
    counts: Counts,
}

impl Reach {
    pub fn of_boards() -> Reach {
        let mut counts = Counts::default();
        counts.name(OF_BOARDS);
        for (call, refusals) in REFUSALS {
            counts.name([format!("{call} done"), format!("board shown after {call}")]);
            counts.name(refusals.iter().map(|number| refused_with(call, *number)));
            counts.name([high_select(call, WRONG_ROOM)]);
            // A reset that is done leaves no such select.
            if call != "reset" {
                counts.name([high_select(call, 0)]);
            }
        }
        counts.name(BOTH.map(|(first, second)| format!("{first} before {second}")));
        counts.name((0..6).map(|port| format!("port {port} read")));
        counts.name([0, 1, 2, 3, 4, 5, 7].map(|port| format!("port {port} written")));
        counts.name((0..10).map(|count| format!("room of {count}")));
        counts.name(INSIDE.map(|name| format!("{name} inside a character")));
        for call in ON_CHANNELS {
            counts.name_places(CHANNELS, [format!("{call} of channel")]);
            counts.name(["the", "another"].map(|which| shown_after(which, call)));
            counts.name([wrong_status_shown_after(call)]);
        }
        counts.name([wrong_status_shown_after("reset")]);
        status::name_of_channels(&mut counts);
        counts.name_places(CHANNELS, ["reset of channel", "arrival on channel"]);
        interrupts::name(&mut counts);
        refused::name(&mut counts);
        tallies::name(&mut counts);
        Reach { counts }
    }

    /// A line for each name, and whether all was reached often enough.
    pub fn report(&self) -> (String, bool) {
        self.counts.report()
    }

    pub fn conclude(&self) -> ExitCode {
        self.counts.conclude()
    }

    fn count(&mut self, name: &str) {
        self.counts.count(name);
    }

    fn count_if(&mut self, fact: bool, name: &str) {
        self.counts.count_if(fact, name);
    }

    /// A run of lines, made on the model.
    pub fn run(&mut self, lines: &[Line]) {
        let mut bench = Bench::new(Side::call);
        let mut ticks = Ticks::new();
        let mut last: Option<Made> = None;
        for line in lines {
            if let Line::Call(call) = line {
                last = Some(self.make(&mut bench, *call, &mut ticks));
                continue;
            }
            match (line, &last) {
                (Line::Fields, Some(made)) if made.used == bench.used => {
                    self.board_shown(made, &bench.side().board);
                }
                (Line::Bytes(place), Some(made)) if made.used == bench.used => {
                    self.device_shown(made, *place);
                    let lents = [&made.before.room[*place], &bench.side().room[*place]];
                    tallies::shown(&mut self.counts, &made.call, made.refusal, lents);
                    self.status_shown(made, *place, lents);
                }
                // What is shown from now on is not what the call left.
                (Line::Set(_) | Line::Device(..), _) => last = None,
                _ => {}
            }
            bench.answer(line);
        }
    }

    fn make(&mut self, bench: &mut Bench, call: Call, ticks: &mut Ticks) -> Made {
        let before = bench.clone();
        let (refusal, values) = bench.call(&call);
        self.called(&before, &call, refusal);
        self.inside(&before, &call, refusal);
        ticks.push((bench.used, call, values[0]));
        if refusal == 0 {
            self.arrived(&before, ticks);
        }
        let used = bench.used;
        let [first, second] = before.sides;
        let before = if used == 0 { first } else { second };
        Made {
            used,
            before,
            call,
            refusal,
        }
    }

    /// The board is shown behind a call of it.
    fn board_shown(&mut self, made: &Made, board: &Board) {
        let call = made.call.name();
        self.count(&format!("board shown after {call}"));
        self.count_if(board.select > 31, &high_select(call, made.refusal));
        if made.refusal != 0 {
            refused::board_shown(&mut self.counts, &made.before, &made.call, made.refusal);
        }
    }

    /// A device is shown behind a call of its board.
    fn device_shown(&mut self, made: &Made, place: usize) {
        let (before, call) = (&made.before, &made.call);
        if made.refusal != 0 {
            return refused::device_shown(&mut self.counts, before, place, call, made.refusal);
        }
        if let Some(channel) = channel(&before.board, call) {
            let which = if channel == place { "the" } else { "another" };
            self.count(&shown_after(which, call.name()));
        }
    }

    /// The status of a device that is shown behind a call, and before it.
    fn status_shown(&mut self, made: &Made, place: usize, lents: [&Lent; 2]) {
        let (before, call) = (&made.before, &made.call);
        let statuses = lents.map(Lent::status);
        if let Some(of_chip) = of_chip(call) {
            status::count_moves(&mut self.counts, &of_chip, statuses);
        }
        let wrong = lents[0].wrong_status();
        let about_it = channel(&before.board, call) == Some(place) || *call == Call::Reset;
        if wrong == 0 || !about_it {
            return;
        }
        status::count_bits(&mut self.counts, wrong);
        if made.refusal == 0 && place < CHANNELS {
            self.count(&wrong_status_shown_after(call.name()));
        }
    }

    fn called(&mut self, before: &Bench, call: &Call, refusal: u8) {
        let side = before.side();
        self.count(&format!("room of {}", side.count));
        let all = refused::refusals(side, call);
        for second in all.iter().skip(1) {
            self.count(&format!("{} before {second}", all[0]));
        }
        match *call {
            Call::In(port) => self.port(before, port, None, refusal),
            Call::Out(port, value) => self.port(before, port, Some(value), refusal),
            _ => {}
        }
        if refusal != 0 {
            refused::called(&mut self.counts, side, call, refusal);
            return self.count(&refused_with(call.name(), refusal));
        }
        self.count(&format!("{} done", call.name()));
        if let Some(channel) = channel(&side.board, call) {
            let name = format!("{} of channel", call.name());
            self.counts.count_place(&name, channel);
        }
        match call {
            Call::Reset => self.reset(side),
            Call::Interrupts => interrupts::looked_at(&mut self.counts, side),
            _ => {}
        }
    }

    /// A read of a port, or a write with its value, in a room of eight.
    fn port(&mut self, before: &Bench, port: u8, value: Option<u8>, refusal: u8) {
        if refusal == WRONG_ROOM {
            return;
        }
        let board = &before.side().board;
        let way = if value.is_some() { "written" } else { "read" };
        match port {
            8.. => self.count(&format!("port above 7 {way}")),
            6 | 7 => self.count(&format!("port {port} {way}")),
            _ if refusal == 0 => self.count(&format!("port {port} {way}")),
            _ => {}
        }
        let unselected = !board.is_selected();
        let nowhere = refusal == NO_SUCH_PORT && unselected;
        self.count_if(
            nowhere,
            "port above 5 refused while another board is selected",
        );
        if port < 6 {
            self.selected(before);
        }
        match (port, value) {
            (4 | 5, None) if refusal == 0 => {
                interrupts::polled(&mut self.counts, before.side(), port);
            }
            (7, Some(value)) => {
                self.count_if(value > 31, "select written with bits 7-5");
                self.count_if(board.number > 3, "select written to a board above 3");
                let name = "select written to a board that is not selected";
                self.count_if(unselected, name);
            }
            _ => {}
        }
    }

    /// Which board is selected where a port of one of them is asked for.
    fn selected(&mut self, before: &Bench) {
        let board = &before.side().board;
        let low = Board {
            number: board.number % 4,
            ..*board
        };
        if board.select > 31 {
            let which = if board.is_selected() { "" } else { "not " };
            self.count(&format!("stored select with bits 7-5, {which}selected"));
        }
        let high = board.number > 3 && low.is_selected();
        self.count_if(high, "board above 3 whose low bits are selected");
        let boards = before.sides.iter().map(|side| side.board.is_selected());
        self.count(match boards.filter(|&selected| selected).count() {
            0 => "no board selected",
            1 => "one of the two boards selected",
            _ => "both boards selected",
        });
    }

    fn reset(&mut self, side: &Side) {
        let board = &side.board;
        let masks = board.transmit_mask != 0 && board.receive_mask != 0;
        self.count_if(masks, "reset with both masks set");
        self.count_if(board.select != 0, "reset with a select");
        self.count_if(
            !board.is_selected(),
            "reset of a board that is not selected",
        );
        let fresh = Lent::InRange(Chip::just_reset());
        for (channel, lent) in side.channels().iter().enumerate() {
            if *lent != fresh {
                self.counts.count_place("reset of channel", channel);
            }
        }
    }

    /// A call while a character is on its way.
    fn inside(&mut self, before: &Bench, call: &Call, refusal: u8) {
        let hearing = |lent: &Lent| lent.view().hearing.is_some();
        let board = &before.side().board;
        if !before
            .sides
            .iter()
            .any(|side| side.channels().iter().any(hearing))
        {
            return;
        }
        let name = match (refusal, call) {
            (NO_SUCH_PORT, _) => "refusal 8",
            (NOT_SELECTED, _) => "refusal 9",
            (0, Call::Out(7, _)) => "select",
            (0, _) => match channel(board, call) {
                Some(channel) if !hearing(&before.side().room[channel]) => {
                    "call on another channel"
                }
                _ => return,
            },
            _ => return,
        };
        self.count(&format!("{name} inside a character"));
    }

    /// Whether the last of some calls, which was done, was a receive tick that
    /// brought a character, and whether it was one of a line's.
    fn arrived(&mut self, before: &Bench, ticks: &Ticks) {
        let Some(&(board, Call::Receive(channel, level), _)) = ticks.last() else {
            return;
        };
        let was = before.side().room[usize::from(channel)].view();
        let last = |(format, heard): (Format, usize)| heard == format.stop_sample() as usize;
        if !was.listening || !was.hearing.is_some_and(last) {
            return;
        }
        self.counts
            .count_place("arrival on channel", usize::from(channel));
        if let Some(from) = sender(ticks, (board, channel), level) {
            let boards = if from == board {
                "one board"
            } else {
                "two boards"
            };
            self.count(&format!("arrival on a line of {boards}"));
        }
    }
}

/// The board of the other end of a line, whose level was received: in a joined tick
/// its transmit tick is among the three calls before.
fn sender(ticks: &Ticks, end: (usize, u8), level: u8) -> Option<usize> {
    let calls = ticks.iter().rev().skip(1).take(3);
    let mut sent = calls.filter_map(|&(board, call, sent)| match call {
        Call::Transmit(channel) if (board, channel) != end => Some((board, sent)),
        _ => None,
    });
    let (board, sent) = sent.next()?;
    (sent == level).then_some(board)
}

fn refused_with(call: &str, refusal: u8) -> String {
    format!("{call} refused with {refusal}")
}

fn shown_after(which: &str, call: &str) -> String {
    format!("{which} channel shown after {call}")
}

fn wrong_status_shown_after(call: &str) -> String {
    format!("channel whose status byte alone was wrong shown after {call}")
}

/// The chip's call that a board's is; none where it is none of one channel, and no reset.
fn of_chip(call: &Call) -> Option<ChipCall> {
    Some(match *call {
        Call::In(port @ 0..=3) => ChipCall::Read(port),
        Call::Out(port @ 0..=3, value) => ChipCall::Write(port, value),
        Call::Reset => ChipCall::Reset,
        Call::Pins(_, levels) => ChipCall::Pins(levels),
        Call::Transmit(_) => ChipCall::Transmit,
        Call::Receive(_, level) => ChipCall::Receive(level),
        Call::Outputs(_) => ChipCall::Outputs,
        Call::In(_) | Call::Out(..) | Call::Interrupts => return None,
    })
}

/// Only a write of port 7 and a reset that are done may change a stored select.
fn high_select(call: &str, refusal: u8) -> String {
    let done = if refusal == 0 { "done" } else { "refused" };
    format!("stored select with bits 7-5 shown after {call} {done}")
}

/// The channel that a call is about: named by it, or selected for ports 0 to 3.
fn channel(board: &Board, call: &Call) -> Option<usize> {
    let channel = match *call {
        Call::In(0..=3) | Call::Out(0..=3, _) => board.selected(),
        Call::Pins(channel, _) | Call::Receive(channel, _) => channel,
        Call::Transmit(channel) | Call::Outputs(channel) => channel,
        Call::In(_) | Call::Out(..) | Call::Reset | Call::Interrupts => return None,
    };
    Some(usize::from(channel))
}
