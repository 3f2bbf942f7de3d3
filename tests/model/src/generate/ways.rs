//! A session on ways that are set up: what comes next depends on their logs, not
//! on the model's chips.

use super::set_up::{harmless, shapeless};
use super::{limits, other, Script, UNITS};
use crate::delivery::way::Way;
use crate::draw::Draws;
use crate::session::{Record, Unit};
use crate::wait::WAIT_LIMIT;

/// Characters written each way, at most.
const CHARACTERS: u32 = 8;

/// The session, the ways that are right, and the characters that may still be
/// written on each.
pub struct Ways {
    pub script: Script,
    ways: Vec<(Way, u32)>,
}

impl Ways {
    /// `script` is a set-up; its one joined tick is made here, now and then by a wait
    /// that nothing ends.
    pub fn new(mut script: Script, draws: &mut Draws, ways: Vec<Way>) -> Ways {
        match draws.below(6) {
            0 => drop(script.wait(draws.of(&UNITS), 1)),
            _ => script.tick(1),
        }
        let counted = |way| (way, draws.between(1, CHARACTERS));
        let ways = ways.into_iter().map(counted).collect();
        Ways { script, ways }
    }

    pub fn add(&mut self, record: Record) {
        self.script.add(record);
        self.ways.iter_mut().for_each(|(way, _)| way.take(record));
    }

    /// The status of `unit`, and a character where it may be written.
    pub fn write(&mut self, draws: &mut Draws, unit: Unit) {
        self.add(Record::Read(unit, 1));
        let mut ways = self.ways.iter_mut();
        let may_write = ways.find(|(way, left)| way.from == unit && *left > 0 && way.may_write());
        if let Some((_, left)) = may_write {
            *left -= 1;
            self.add(Record::Write(unit, 0, draws.byte()));
        }
    }

    /// Reads what has come to `unit`, if something has.
    pub fn fetch(&mut self, unit: Unit) {
        let unread = |(way, _): &(Way, u32)| way.to() == unit && way.is_unread();
        if self.ways.iter().any(unread) {
            self.add(Record::Read(unit, 1));
            self.add(Record::Read(unit, 0));
        }
    }

    /// A character from the other end, where it may be written, and a wait for it.
    pub fn converse(&mut self, draws: &mut Draws, unit: Unit) {
        self.write(draws, other(unit));
        self.wait_for_one(draws, unit);
    }

    /// A wait for a character at `unit`, which is read then, most often. The logs say when
    /// it ends on a way that is right; on another one only the chips can.
    pub fn wait_for_one(&mut self, draws: &mut Draws, unit: Unit) {
        let limit = self.limit(draws, unit);
        let spent = self.script.wait(unit, limit);
        for (way, _) in &mut self.ways {
            (0..spent).for_each(|_| way.tick());
        }
        self.read_in_time();
        if !draws.one_in(4) {
            self.fetch(unit);
        }
    }

    /// The limit of a wait at `unit`, by the way that leads there, if one does: L+D most
    /// often, or about the tick with which a character comes.
    fn limit(&self, draws: &mut Draws, unit: Unit) -> u32 {
        let mut ways = self.ways.iter().map(|(way, _)| way);
        let Some(way) = ways.find(|way| way.to() == unit) else {
            return self.in_time(unit, draws.between(1, self.longest()));
        };
        let bound = way.bound();
        let limit = match draws.below(16) {
            0 => return limits::too_high(draws),
            1 => 0,
            2 => draws.between(1, 3),
            3..=6 => way.comes_in().unwrap_or(bound) + draws.below(3) - 1,
            7 if way.is_under_way() => WAIT_LIMIT,
            8..=9 => draws.between(bound + 1, 2 * bound),
            _ => bound,
        };
        self.in_time(unit, limit)
    }

    /// The limit of a wait at `unit`, or the lower one that makes no read too late.
    fn in_time(&self, unit: Unit, limit: u32) -> u32 {
        let mut ways: Vec<Way> = self.ways.iter().map(|(way, _)| way.clone()).collect();
        for spent in 0..limit {
            if ways.iter().any(|way| way.to() == unit && way.is_unread()) {
                return limit;
            }
            if ways.iter().any(Way::must_read) {
                return spent;
            }
            ways.iter_mut().for_each(Way::tick);
        }
        limit
    }

    /// A line that no way has to do with.
    pub fn pass(&mut self, draws: &mut Draws, unit: Unit) {
        if draws.one_in(8) {
            self.script.line(&shapeless(draws));
        } else {
            self.add(harmless(draws, unit));
        }
    }

    /// Some ticks, and reads just in time where no other came before.
    pub fn wait(&mut self, draws: &mut Draws) {
        let length = self.longest();
        let most = draws.of(&[1, 3, length / 3 + 1, length, length + 1, 2 * length]);
        for _ in 0..draws.between(1, most) {
            self.tick();
        }
    }

    /// Up to the next tick with which a way changes, and looks at both ends before
    /// that tick and after it.
    pub fn watch(&mut self, draws: &mut Draws) {
        let place = draws.below(self.ways.len() as u32) as usize;
        let is_far = |way: &Way| way.is_under_way() && !way.begins_next() && !way.comes_next();
        while is_far(&self.ways[place].0) {
            self.tick();
        }
        self.look();
        self.tick();
        self.look();
    }

    fn look(&mut self) {
        for unit in UNITS {
            self.add(Record::Read(unit, 1));
        }
    }

    /// One joined tick, and the reads behind it.
    fn tick(&mut self) {
        self.script.tick(1);
        self.ways.iter_mut().for_each(|(way, _)| way.tick());
        self.read_in_time();
    }

    /// A read at each end where another tick would be too many.
    fn read_in_time(&mut self) {
        let late = self.ways.iter().filter(|(way, _)| way.must_read());
        let ends: Vec<Unit> = late.map(|(way, _)| way.to()).collect();
        ends.into_iter().for_each(|unit| self.fetch(unit));
    }

    /// L of the longer frames.
    fn longest(&self) -> u32 {
        let lengths = self.ways.iter().map(|(way, _)| way.frame_length());
        lengths.max().expect("a way")
    }

    /// L+D joined ticks and more: the last characters come, and are read.
    pub fn drain(mut self) -> Vec<u8> {
        for _ in 0..2 * self.longest() {
            self.tick();
        }
        UNITS.into_iter().for_each(|unit| self.fetch(unit));
        self.look();
        self.script.into_bytes()
    }
}
