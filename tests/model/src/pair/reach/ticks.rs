//! What happens in a joined tick on one way of the line: at its sender, and at the
//! receiver of the other end.

use crate::chip::View;
use crate::Format;

// The error flags in the status ("Registers").
const PARITY: u8 = 8;
const OVERRUN: u8 = 16;
const FRAMING: u8 = 32;

/// A tick on a way: the end that sends and the one that hears, before it and behind
/// it, and the level between them.
pub struct Tick<'a> {
    pub from: [&'a View; 2],
    pub to: [&'a View; 2],
    pub level: u8,
}

// The events that facts of whole runs speak of.
pub const BEGINS: &str = "a frame's first tick";
pub const ENDS: &str = "a frame's last tick";
pub const START: &str = "a start";
pub const ARRIVAL: &str = "a stop sample";
pub const BREAK: &str = "a tick of a break";
pub const GUARD_FALLS: &str = "a guard that falls";
pub const WAITS_AT_ZERO: &str = "a 0 while the receiver waits";
pub const OVERRUNS: &str = "an overrun flag";
pub const FALSE_START: &str = "a false start";
pub const PARITY_FLAG: &str = "a parity flag";
pub const FRAMING_FLAG: &str = "a framing flag";

type Event = (&'static str, fn(&Tick) -> bool);

/// The events that a run may end beside: the first of all.
pub const EDGES: usize = 6;

pub const EVENTS: [Event; 22] = [
    (BEGINS, |tick| tick.begins()),
    (ENDS, |tick| tick.ends()),
    (START, |tick| tick.start()),
    ("a look within a character", |tick| tick.look()),
    (FALSE_START, |tick| tick.false_start()),
    (ARRIVAL, |tick| tick.arrival()),
    (BREAK, |tick| tick.breaks()),
    (GUARD_FALLS, |tick| tick.from[1].guard < tick.from[0].guard),
    ("an empty-mark", |tick| {
        tick.from[1].empty_mark && !tick.from[0].empty_mark
    }),
    (WAITS_AT_ZERO, |tick| {
        tick.to[0].listening && tick.to[0].waits && tick.level == 0
    }),
    (PARITY_FLAG, |tick| tick.sets(PARITY)),
    (FRAMING_FLAG, |tick| tick.sets(FRAMING)),
    ("both flags by one character", |tick| {
        tick.sets(PARITY) && tick.sets(FRAMING)
    }),
    (OVERRUNS, |tick| tick.sets(OVERRUN)),
    ("a good character with the parity flag set", |tick| {
        tick.good_with(PARITY)
    }),
    ("a good character with the framing flag set", |tick| {
        tick.good_with(FRAMING)
    }),
    ("a good character with the overrun flag set", |tick| {
        tick.good_with(OVERRUN)
    }),
    ("a character heard as it is sent", |tick| {
        tick.differ(|format| Format { stop: 0, ..*format }) == Some(false)
    }),
    ("a character heard by another length", |tick| {
        tick.differ(|format| format.length) == Some(true)
    }),
    ("a character heard with parity at one end alone", |tick| {
        tick.differ(|format| format.parity) == Some(true)
    }),
    ("a character heard by another kind of parity", |tick| {
        tick.differ(|format| format.parity.then_some(format.even)) == Some(true)
    }),
    ("a character heard with another stop length", |tick| {
        tick.differ(|format| format.stop) == Some(true)
    }),
];

impl Tick<'_> {
    pub fn begins(&self) -> bool {
        !self.from[0].sending && self.from[1].sending
    }

    fn ends(&self) -> bool {
        self.from[0].sending && !self.from[1].sending
    }

    /// A 0 between frames is a break's.
    fn breaks(&self) -> bool {
        self.level == 0 && !self.from[0].sending && !self.from[1].sending
    }

    fn start(&self) -> bool {
        self.to[0].hearing.is_none() && self.to[1].hearing.is_some()
    }

    /// The character that is heard, and the number of the sample that comes.
    fn heard(&self) -> Option<(Format, u32)> {
        let listens = self.to[0].hearing.filter(|_| self.to[0].listening);
        listens.map(|(format, samples)| (format, samples as u32))
    }

    /// The start bit, or a bit of the character: not its stop.
    fn look(&self) -> bool {
        self.heard().is_some_and(|(format, sample)| {
            let since = sample.checked_sub(format.half());
            since.is_some_and(|since| since % format.factor == 0)
                && sample != format.stop_sample()
                && format.factor > 1
        })
    }

    fn arrival(&self) -> bool {
        self.heard()
            .is_some_and(|(format, sample)| sample == format.stop_sample())
    }

    fn false_start(&self) -> bool {
        self.heard().is_some() && self.to[1].hearing.is_none() && !self.arrival()
    }

    /// A character that sets a flag which was not set.
    fn sets(&self, flag: u8) -> bool {
        self.arrival() && self.to[1].status & !self.to[0].status & flag != 0
    }

    /// A character that sets no flag, where one was set before.
    fn good_with(&self, flag: u8) -> bool {
        let flags = PARITY + FRAMING + OVERRUN;
        self.arrival()
            && self.to[0].status & flag != 0
            && self.to[1].status & !self.to[0].status & flags == 0
    }

    /// The factors of the frame under way and of a character that starts.
    pub fn factors(&self) -> Option<[u32; 2]> {
        let (sent, _) = self.from[1].frame?;
        let (heard, _) = self.to[1].hearing?;
        self.start().then_some([sent.factor, heard.factor])
    }

    /// Whether a character arrives of whose format a part is another than of that of
    /// the frame under way; nothing where there is not both.
    fn differ<T: PartialEq>(&self, part: fn(&Format) -> T) -> Option<bool> {
        let (sent, _) = self.from[0].frame?;
        let (heard, _) = self.to[0].hearing?;
        self.arrival().then(|| part(&sent) != part(&heard))
    }
}
