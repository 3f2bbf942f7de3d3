//! The tallies of one chip and what they stamp (P4 of the change requests), followed
//! from call to call: what was seen of them, by a read of a session or a look of a host.
//! What no call shows is not counted, since it is not compared.

use crate::chip::View;
use crate::counts::Counts;

/// Why a receive tick is not heard; it counts all the same.
type Deaf = (&'static str, fn(&View) -> bool);

const DEAF: [Deaf; 3] = [
    ("with receive off", View::receive_off),
    ("with DCD high", View::dcd_high),
    ("with no mode", View::no_mode),
];

// Of a stamp that is seen.
const NONE: &str = "stamp of 0 seen before any character";
const NONE_AGAIN: &str = "stamp of 0 seen behind a reset that cleared one";
const READ: &str = "stamp seen behind a read of its character";
const READ_AGAIN: &str = "stamp seen behind a second read of its character";
const EMPTIED: &str = "stamp seen of a character that receive off emptied unread";
const OVERRUN: &str = "stamp seen of a character that overran";
const LATER: &str = "stamp seen some ticks after it";
const DIGITS: &str = "stamp seen by its digits, 1 to 4";
const MORE_DIGITS: &str = "stamp seen of five digits or more";
/// Only a host looks at it without a read, and only what a host lends has a tally that
/// wraps.
const UNREAD: &str = "stamp seen of an unread character";
const WRAPPED: &str = "stamp seen that is smaller than the one before it";

// Of a start that is seen, which is a host's look.
const START: &str = "start stamp seen within its frame";
const START_LEFT: &str = "start stamp seen behind its frame";
const START_NONE: &str = "start stamp of 0 seen before any frame";
const START_BREAK: &str = "start stamp seen that a break left";
const START_GUARD: &str = "start stamp seen that a guard left";
const START_MARK: &str = "start stamp seen that mark left";
const START_WRAPPED: &str = "start stamp seen that is smaller than the one before it";

// Of a tally that is seen.
const RECEIVE_WRAPPED: &str = "receive tally seen that wrapped";
const TRANSMIT_WRAPPED: &str = "transmit tally seen that wrapped";
const RECEIVE_REFUSED: &str = "receive tally seen behind a refused receive tick";
const BOTH_REFUSED: &str = "tallies seen behind a refused tick of both";
const APART: &str = "tallies seen that differ";

fn counts_in_stamp(deaf: &str) -> String {
    format!("stamp seen that counts ticks {deaf}")
}

fn counts_in_tally(deaf: &str) -> String {
    format!("receive tally seen that counts a tick {deaf}")
}

/// What sessions and hosts see.
pub fn name(counts: &mut Counts) {
    counts.name([NONE, NONE_AGAIN, READ, READ_AGAIN, EMPTIED, OVERRUN, LATER]);
    counts.name(DEAF.map(|(deaf, _)| counts_in_stamp(deaf)));
}

/// What only sessions write.
pub fn name_of_sessions(counts: &mut Counts) {
    counts.name_places(4, [DIGITS]);
    counts.name_dear([MORE_DIGITS]);
}

/// What only hosts see.
pub fn name_of_hosts(counts: &mut Counts) {
    counts.name([UNREAD, WRAPPED, START, START_LEFT, START_NONE]);
    counts.name([START_BREAK, START_GUARD, START_MARK, START_WRAPPED]);
    counts.name([RECEIVE_WRAPPED, TRANSMIT_WRAPPED]);
    counts.name([RECEIVE_REFUSED, BOTH_REFUSED, APART]);
    counts.name(DEAF.map(|(deaf, _)| counts_in_tally(deaf)));
}

/// A chip since its reset, or since a host set it.
#[derive(Clone, Copy, Default)]
pub struct Watch {
    /// Characters that came; the last one's history.
    characters: u32,
    overran: bool,
    reads: u32,
    emptied: bool,
    smaller: bool,
    /// Whether ticks were not heard, by their reason: so far, those that the last
    /// stamp counts, and the last tick itself.
    deaf: [bool; 3],
    stamped: [bool; 3],
    last: [bool; 3],
    receive_wrapped: bool,
    /// Frames that began, and what came behind the last one.
    frames: u32,
    start_smaller: bool,
    breaks: bool,
    guards: bool,
    marks: bool,
    transmit_wrapped: bool,
    /// A stamp was there before the reset.
    cleared: bool,
}

impl Watch {
    /// A reset, before which the chip was so.
    pub fn reset(&mut self, before: &View) {
        let cleared = before.stamp != 0;
        *self = Watch {
            cleared,
            ..Watch::default()
        };
    }

    /// A host sets the device: what it has stamped is not of its calls.
    pub fn set(&mut self) {
        *self = Watch::default();
    }

    pub fn transmitted(&mut self, before: &View, after: &View) {
        self.transmit_wrapped |= after.transmit_tally < before.transmit_tally;
        if before.starts_now() {
            self.start_smaller = self.frames > 0 && after.start < before.start;
            self.frames += 1;
            [self.breaks, self.guards, self.marks] = [false; 3];
        } else if !before.sending {
            self.breaks |= before.in_break();
            self.guards |= before.guard > 0 && !before.in_break();
            self.marks |= before.guard == 0 && !before.in_break();
        }
    }

    /// A receive tick that is done, and whether it brought a character.
    pub fn received(&mut self, before: &View, after: &View, arrived: bool) {
        self.receive_wrapped |= after.receive_tally < before.receive_tally;
        self.last = DEAF.map(|(_, holds)| holds(before));
        for (deaf, last) in self.deaf.iter_mut().zip(self.last) {
            *deaf |= last;
        }
        if arrived {
            self.smaller = self.characters > 0 && after.stamp < before.stamp;
            self.characters += 1;
            self.overran = before.status & 2 != 0;
            self.reads = 0;
            self.emptied = false;
            self.stamped = self.deaf;
        }
    }

    /// A command that is done.
    pub fn commanded(&mut self, before: &View, after: &View) {
        self.emptied |= before.status & !after.status & 2 != 0;
    }

    pub fn read(&mut self) {
        self.reads += 1;
    }

    /// The stamp is seen, behind its read where a read shows it.
    fn saw_stamp(&self, counts: &mut Counts, view: &View) {
        if self.characters == 0 {
            counts.count_if(view.stamp == 0, NONE);
            return counts.count_if(view.stamp == 0 && self.cleared, NONE_AGAIN);
        }
        counts.count_if(self.reads == 1, READ);
        counts.count_if(self.reads > 1, READ_AGAIN);
        counts.count_if(self.emptied, EMPTIED);
        counts.count_if(self.overran, OVERRUN);
        counts.count_if(view.receive_tally != view.stamp, LATER);
        for ((deaf, _), stamped) in DEAF.iter().zip(self.stamped) {
            counts.count_if(stamped, &counts_in_stamp(deaf));
        }
    }

    /// A session's read, which writes the stamp.
    pub fn read_stamp(&mut self, counts: &mut Counts, view: &View) {
        self.read();
        self.saw_stamp(counts, view);
        match view.stamp.to_string().len() {
            digits @ 1..=4 if view.stamp > 0 => counts.count_place(DIGITS, digits - 1),
            1 => {}
            _ => counts.count(MORE_DIGITS),
        }
    }

    /// A host's look at the stamp.
    pub fn looked_at_stamp(&self, counts: &mut Counts, view: &View) {
        self.saw_stamp(counts, view);
        let unread = view.status & 2 != 0;
        counts.count_if(self.characters > 0 && unread, UNREAD);
        counts.count_if(self.smaller, WRAPPED);
    }

    pub fn saw_start(&self, counts: &mut Counts, view: &View) {
        if self.frames == 0 {
            return counts.count_if(view.start == 0, START_NONE);
        }
        counts.count(if view.sending { START } else { START_LEFT });
        counts.count_if(self.breaks, START_BREAK);
        counts.count_if(self.guards, START_GUARD);
        counts.count_if(self.marks, START_MARK);
        counts.count_if(self.start_smaller, START_WRAPPED);
    }

    pub fn saw_transmit_tally(&self, counts: &mut Counts, view: &View) {
        counts.count_if(self.transmit_wrapped, TRANSMIT_WRAPPED);
        counts.count_if(view.transmit_tally != view.receive_tally, APART);
    }

    pub fn saw_receive_tally(&self, counts: &mut Counts) {
        counts.count_if(self.receive_wrapped, RECEIVE_WRAPPED);
        for ((deaf, _), last) in DEAF.iter().zip(self.last) {
            counts.count_if(last, &counts_in_tally(deaf));
        }
    }
}

/// What was refused just before a look at a tally.
#[derive(Clone, Copy, PartialEq, Eq)]
pub enum Refused {
    Receive,
    Both,
}

pub fn saw_behind(counts: &mut Counts, refused: Refused) {
    counts.count(match refused {
        Refused::Receive => RECEIVE_REFUSED,
        Refused::Both => BOTH_REFUSED,
    });
}
