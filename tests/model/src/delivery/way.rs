//! One way of the line by its log: what the one side wrote and the other read,
//! and when. Times are joined ticks since the one joined tick of the set-up.

use super::side::Frames;
use crate::session::{other, Record, Unit};
use std::collections::VecDeque;

// The bits of the status that demand 3 speaks of ("Registers"): framing, overrun
// and parity are the flags.
pub const MAY_WRITE: u8 = 1;
const UNREAD: u8 = 2;
pub const OVERRUN: u8 = 16;
const FLAGS: u8 = 32 + OVERRUN + 8;

#[derive(Clone, Debug)]
pub struct Way {
    pub from: Unit,
    frames: Frames,
    now: u32,
    /// When the latest frame begins: its first tick is the next one then.
    begins: Option<u32>,
    /// When all that was written is sent.
    over: u32,
    /// The characters under way or waiting, cut, and when each comes.
    to_come: VecDeque<(u32, u8)>,
    /// The latest character that came, and when, while it is unread.
    held: u8,
    came: Option<u32>,
    /// When the character that is held came, read or not; none while there was none.
    latest: Option<u32>,
}

impl Way {
    pub fn new(from: Unit, frames: Frames) -> Way {
        Way {
            from,
            frames,
            now: 0,
            begins: None,
            over: 0,
            to_come: VecDeque::new(),
            held: 0,
            came: None,
            latest: None,
        }
    }

    pub fn to(&self) -> Unit {
        other(self.from)
    }

    /// L.
    pub fn frame_length(&self) -> u32 {
        self.frames.length
    }

    /// L+D: what is written comes within so many joined ticks.
    pub fn bound(&self) -> u32 {
        self.frames.length + self.frames.stop_sample
    }

    /// The joined ticks up to the next one with which a character comes, if any does.
    pub fn comes_in(&self) -> Option<u32> {
        self.to_come.front().map(|&(comes, _)| comes - self.now)
    }

    /// Whether that character's frame begins with the next tick, or later still.
    pub fn starts_next(&self) -> bool {
        self.comes_in() == Some(1 + self.frames.stop_sample)
    }

    pub fn starts_later(&self) -> bool {
        let comes_in = self.comes_in();
        comes_in.is_some_and(|ticks| ticks > 1 + self.frames.stop_sample)
    }

    /// Status bit 0 of the sender: nothing was written yet, or the latest frame
    /// has begun.
    pub fn may_write(&self) -> bool {
        match self.begins {
            None => true,
            Some(begins) => begins < self.now,
        }
    }

    /// Whether something was written, and whether some of it is not yet sent.
    pub fn is_written(&self) -> bool {
        self.begins.is_some()
    }

    pub fn is_busy(&self) -> bool {
        self.over > self.now
    }

    pub fn is_unread(&self) -> bool {
        self.came.is_some()
    }

    /// Whether some characters have still to come.
    pub fn is_under_way(&self) -> bool {
        !self.to_come.is_empty()
    }

    /// Whether the next tick is the first one of a frame, or this one was.
    pub fn begins_next(&self) -> bool {
        self.begins == Some(self.now)
    }

    pub fn has_just_begun(&self) -> bool {
        self.begins.is_some_and(|begins| begins + 1 == self.now)
    }

    /// Whether a character comes with the next tick, or came with this one and is
    /// unread.
    pub fn comes_next(&self) -> bool {
        self.comes_in() == Some(1)
    }

    pub fn has_just_come(&self) -> bool {
        self.came == Some(self.now)
    }

    /// Whether the next tick would be the L-th since a character came that is
    /// unread.
    pub fn must_read(&self) -> bool {
        self.came
            .is_some_and(|came| self.now + 1 >= came + self.frames.length)
    }

    /// Whether demand 3 allows the call: a character is written when bit 0 says
    /// so, and no mode is written. That the way stays open is for the sides to say.
    pub fn allows(&self, record: Record) -> bool {
        match record {
            Record::Write(unit, 0, _) if unit == self.from => self.may_write(),
            Record::Write(_, 2, _) => false,
            _ => true,
        }
    }

    /// The bits of a read that this way tells, and what they must be.
    pub fn shows(&self, record: Record) -> (u8, u8) {
        match record {
            Record::Read(unit, 1) if unit == self.from => (MAY_WRITE, u8::from(self.may_write())),
            Record::Read(_, 1) => (UNREAD + FLAGS, UNREAD * u8::from(self.is_unread())),
            // While none is unread the last one is given again.
            Record::Read(unit, 0) if unit == self.to() => (255, self.held),
            _ => (0, 0),
        }
    }

    /// The receive tally with which the character held came. Both ends were reset, or
    /// began so, and the one joined tick of the set-up was the first since.
    pub fn stamp(&self) -> u32 {
        self.latest.map_or(0, |came| came + 1)
    }

    /// A call that is done.
    pub fn take(&mut self, record: Record) {
        match record {
            Record::Write(unit, 0, value) if unit == self.from => self.write(value),
            Record::Read(unit, 0) if unit == self.to() => self.came = None,
            _ => {}
        }
    }

    /// A frame begins once it is written and the one before it is over, and takes
    /// L ticks. Its tick 0 is the next one, so its stop sample is D after that.
    fn write(&mut self, value: u8) {
        let begins = self.now.max(self.over);
        self.begins = Some(begins);
        self.over = begins + self.frames.length;
        let comes = begins + 1 + self.frames.stop_sample;
        self.to_come.push_back((comes, value & self.frames.highest));
    }

    /// A joined tick.
    pub fn tick(&mut self) {
        self.now += 1;
        match self.to_come.front() {
            Some(&(comes, value)) if comes == self.now => {
                self.to_come.pop_front();
                self.held = value;
                self.came = Some(comes);
                self.latest = Some(comes);
            }
            _ => {}
        }
    }
}
