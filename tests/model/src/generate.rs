//! The random sessions, each with a fixed seed: its kind and its index. The runs
//! of calls are in `calls`, the devices in `ranges`, the boards in `boards`, the pairs
//! in `pairs`.

mod alike;
pub mod boards;
pub mod calls;
mod hostile;
mod limits;
mod malformed;
mod one_way;
pub mod pairs;
pub mod ranges;
mod realistic;
mod set_up;
mod ways;

use crate::chip::joined_ticks;
use crate::draw::Draws;
use crate::session::{other, Bench, Pair, Record, Unit, UNITS};
use crate::wait::wait;

/// Sessions of each kind.
pub const SESSIONS: u32 = 600;
/// The values of mode 1 that are accepted: three factors, three stop lengths and
/// four bits between ("Refusal numbers", 3 and 4).
pub const ACCEPTED_MODES: u32 = 144;

#[derive(Clone, Copy, Debug, PartialEq, Eq)]
pub enum Kind {
    /// A bench at work, with its faults now and then.
    Realistic,
    /// Any number at any time.
    Hostile,
    /// Lines that are damaged.
    Malformed,
    /// The premises of demand 3.
    Alike,
    /// The premises of one way of it, with the other way misused.
    OneWay,
}

pub const KINDS: [Kind; 5] = [
    Kind::Realistic,
    Kind::Hostile,
    Kind::Malformed,
    Kind::Alike,
    Kind::OneWay,
];

/// The whole input of a session.
pub fn session(kind: Kind, index: u32) -> Vec<u8> {
    let mut draws = Draws::new(kind as u32, index);
    match kind {
        Kind::Realistic => realistic::session(&mut draws, index),
        Kind::Hostile => hostile::session(&mut draws, index),
        Kind::Malformed => malformed::session(&mut draws),
        Kind::Alike => alike::session(&mut draws, index),
        Kind::OneWay => one_way::session(&mut draws, index),
    }
}

/// The sides from which every character written in a session must arrive.
pub fn senders(kind: Kind, index: u32) -> Vec<Unit> {
    match kind {
        Kind::Realistic | Kind::Hostile | Kind::Malformed => Vec::new(),
        Kind::Alike => UNITS.to_vec(),
        Kind::OneWay => vec![one_way::sender(index)],
    }
}

/// The accepted values of mode 1 in turn, the factor changing first.
pub fn accepted_mode(index: u32) -> u8 {
    let (factor, middle, stop) = (index % 3, index / 3 % 16, index / 48 % 3);
    (64 * (1 + stop) + 4 * middle + 1 + factor) as u8
}

fn any_mode(draws: &mut Draws) -> u8 {
    accepted_mode(draws.below(ACCEPTED_MODES))
}

/// A session that is being written, and the chips that it leaves, so that what
/// comes next can depend on what came.
struct Script {
    text: String,
    pair: Pair,
    /// All joined ticks so far, and those at the end that have no line yet.
    ticks: u32,
    pending: u32,
}

impl Script {
    fn new() -> Script {
        Script {
            text: String::new(),
            pair: Pair::just_reset(),
            ticks: 0,
            pending: 0,
        }
    }

    fn add(&mut self, record: Record) {
        self.flush();
        self.text += &record.to_string();
        // What a record answers is the comparison's to judge.
        let _ = self.pair.act(record);
    }

    /// A line that is refused for its text alone.
    fn line(&mut self, text: &str) {
        self.flush();
        self.text += &format!("{text}\n");
    }

    fn write(&mut self, unit: Unit, address: u8, value: u8) {
        self.add(Record::Write(unit, address, value));
    }

    fn read(&mut self, unit: Unit, address: u8) {
        self.add(Record::Read(unit, address));
    }

    fn pins(&mut self, unit: Unit, levels: [u8; 3]) {
        self.add(Record::Pins(unit, levels));
    }

    /// Joined ticks, which get one line with those before and after them.
    fn tick(&mut self, count: u32) {
        self.ticks += count;
        self.pending += count;
        joined_ticks(&mut self.pair.a, &mut self.pair.b, count);
    }

    /// A wait for a character, and the joined ticks that it spends: none where it is
    /// refused.
    fn wait(&mut self, unit: Unit, limit: u32) -> u32 {
        self.flush();
        self.text += &Record::Wait(unit, limit).to_string();
        let holds = |pair: &Pair| pair.holds_unread(unit);
        let tick = |pair: &mut Pair| joined_ticks(&mut pair.a, &mut pair.b, 1);
        let spent = wait(&mut self.pair, limit, holds, tick);
        let spent = spent.map_or(0, u32::from);
        self.ticks += spent;
        spent
    }

    fn flush(&mut self) {
        if self.pending > 0 {
            self.text += &Record::JoinedTicks(self.pending as u16).to_string();
            self.pending = 0;
        }
    }

    /// The status, which no read clears here.
    fn status(&mut self, unit: Unit) -> u8 {
        self.pair.chip(unit).view().status
    }

    fn may_write(&mut self, unit: Unit) -> bool {
        self.status(unit) & 1 != 0
    }

    fn unread(&mut self, unit: Unit) -> bool {
        self.status(unit) & 2 != 0
    }

    fn into_bytes(mut self) -> Vec<u8> {
        self.flush();
        self.text.into_bytes()
    }
}
