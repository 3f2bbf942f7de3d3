//! What is counted of whole runs, on each of their ways and on both.

use super::ticks::{ARRIVAL, BEGINS, BREAK, ENDS, GUARD_FALLS, OVERRUNS, START, WAITS_AT_ZERO};
use super::ways::Way;
use super::WAYS;
use crate::chip::{decode, View};
use crate::pair::RUN_LIMIT;
use crate::Format;

/// From here on a run is a long one.
const LONG: u32 = 1000;

/// A frame or a character under way: its format, and its ticks so far.
type UnderWay = (Format, usize);

pub type Fact = (&'static str, fn(&Way) -> bool);

const OF_SENDERS: [Fact; 28] = [
    ("begins within a frame", |way| way.from[0].sending),
    ("ends within a frame", |way| way.from[1].sending),
    ("begins within a frame and ends within the next", |way| {
        way.from[0].sending && way.from[1].sending && way.times(BEGINS) == 1
    }),
    ("begins with a character that begins at once", |way| {
        way.from[0].starts_now()
    }),
    ("ends two frames", |way| way.times(ENDS) == 2),
    ("begins in a break", |way| way.from[0].in_break()),
    ("has a break throughout", |way| {
        way.ticks > 1 && way.always(BREAK)
    }),
    ("has a break behind a frame", |way| {
        way.from[0].sending && way.times(BREAK) > 0
    }),
    ("leaves a break's guard", |way| {
        way.from[1].in_break() && way.from[1].guard > 0 && way.times(BREAK) > 0
    }),
    ("runs a guard down", |way| {
        way.falls() && way.from[1].guard == 0
    }),
    ("runs a guard down and ends with its last tick", |way| {
        way.falls() && way.ticks == way.from[0].guard
    }),
    ("leaves a part of a guard", |way| {
        way.falls() && way.from[1].guard > 0
    }),
    ("begins a frame behind a guard", |way| {
        way.from[0].guard > 0 && way.times(BEGINS) > 0
    }),
    ("runs a guard down with transmit off", |way| {
        way.falls() && way.from[0].transmit_off()
    }),
    ("runs a guard down with CTS high", |way| {
        way.falls() && way.from[0].cts_high()
    }),
    ("runs a guard down with no mode", |way| {
        way.falls() && way.from[0].no_mode()
    }),
    ("keeps a character waiting with transmit off", |way| {
        way.keeps_waiting() && way.from[0].transmit_off()
    }),
    ("keeps a character waiting with CTS high", |way| {
        way.keeps_waiting() && way.from[0].cts_high()
    }),
    ("keeps a character waiting with no mode", |way| {
        way.keeps_waiting() && way.from[0].no_mode()
    }),
    ("ends a frame with transmit off", |way| {
        way.times(ENDS) > 0 && way.from[0].transmit_off()
    }),
    ("ends a frame with CTS high", |way| {
        way.times(ENDS) > 0 && way.from[0].cts_high()
    }),
    ("ends a frame with no mode", |way| {
        way.times(ENDS) > 0 && way.from[0].no_mode()
    }),
    ("ends a frame with a break on", |way| {
        way.times(ENDS) > 0 && way.from[0].break_on()
    }),
    ("begins within a frame of another mode", |way| {
        way.in_another_mode()
    }),
    ("begins a frame behind one of another mode", |way| {
        way.in_another_mode() && way.times(BEGINS) > 0
    }),
    ("begins a frame by an internal clock alone", |way| {
        way.times(BEGINS) > 0 && by_clock(&way.from[0], way.from[0].sends())
    }),
    ("ends a frame with another waiting", |way| {
        way.from[0].sending && way.from[0].waiting && way.times(ENDS) > 0
    }),
    ("ends a frame and sets no mark", |way| {
        way.times(ENDS) > 0 && !way.from[1].empty_mark
    }),
];

const OF_RECEIVERS: [Fact; 21] = [
    ("begins within a character", |way| {
        way.to[0].hearing.is_some()
    }),
    ("ends within a character", |way| way.to[1].hearing.is_some()),
    ("begins within a character of a break", |way| {
        way.to[0].hearing.is_some() && way.from[0].in_break()
    }),
    ("brings one character", |way| way.arrivals() == 1),
    ("brings two characters", |way| way.arrivals() == 2),
    ("brings more than two", |way| way.arrivals() > 2),
    ("overruns what it brings", |way| {
        way.to[0].status & 2 == 0 && way.times(OVERRUNS) > 0
    }),
    ("has the receiver wait at 0 throughout", |way| {
        way.ticks > 1 && way.always(WAITS_AT_ZERO)
    }),
    ("has the receiver wait at 0, then hear a 1", |way| {
        way.times(WAITS_AT_ZERO) > 0 && !way.to[1].waits
    }),
    ("begins with a receiver that waits at mark", |way| {
        way.to[0].waits && way.to[0].listening && way.from[0].at_mark()
    }),
    ("has receive off", |way| way.to[0].receive_off()),
    ("has DCD high", |way| way.to[0].dcd_high()),
    ("has no mode to hear by", |way| way.to[0].no_mode()),
    ("drops a character with receive off", |way| {
        way.drops() && way.to[0].receive_off()
    }),
    ("drops a character with DCD high", |way| {
        way.drops() && way.to[0].dcd_high()
    }),
    ("drops a character with no mode", |way| {
        way.drops() && way.to[0].no_mode()
    }),
    ("loses the mark with receive off", |way| {
        !way.to[0].waits && way.to[0].receive_off() && !way.drops()
    }),
    ("begins within a character of another mode", |way| {
        way.hears_another_mode()
    }),
    ("hears a start behind a character of another mode", |way| {
        way.hears_another_mode() && way.times(START) > 0
    }),
    ("hears a start by an internal clock alone", |way| {
        way.times(START) > 0 && by_clock(&way.to[0], way.to[0].hears())
    }),
    ("keeps an unread character", |way| {
        way.to[0].status & 2 != 0 && way.arrivals() == 0
    }),
];

const OF_LONG_RUNS: [Fact; 9] = [
    ("is long and at mark throughout", |way| {
        way.is_long() && way.from[0].at_mark()
    }),
    ("has 65535 ticks at mark", |way| {
        way.ticks == RUN_LIMIT && way.from[0].at_mark()
    }),
    ("is long, with a break throughout", |way| {
        way.is_long() && way.always(BREAK)
    }),
    ("is long, with the receiver waiting at 0", |way| {
        way.is_long() && way.always(WAITS_AT_ZERO)
    }),
    ("is long, with a character kept waiting", |way| {
        way.is_long() && way.keeps_waiting()
    }),
    ("is long, with nothing listening", |way| {
        way.is_long() && !way.to[0].listening
    }),
    ("is long, with a frame under way", |way| {
        way.is_long() && way.from[0].sending
    }),
    ("is long, with two frames", |way| {
        way.is_long() && way.times(ENDS) == 2
    }),
    ("is long, with a guard that falls", |way| {
        way.is_long() && way.falls()
    }),
];

/// Of both ways at once.
pub type OfBoth = (&'static str, fn(&[Way; WAYS]) -> bool);

pub const OF_BOTH: [OfBoth; 6] = [
    (
        "begins within frames both ways, at different places",
        |ways| frames(ways).is_some_and(|[(_, there), (_, back)]| there != back),
    ),
    (
        "begins within frames both ways, at the same place",
        |ways| frames(ways).is_some_and(|[(_, there), (_, back)]| there == back),
    ),
    ("begins within frames of different factors", |ways| {
        frames(ways).is_some_and(|[(there, _), (back, _)]| there.factor != back.factor)
    }),
    ("ends two frames both ways", |ways| {
        ways.iter().all(|way| way.times(ENDS) == 2)
    }),
    ("brings characters both ways", |ways| {
        ways.iter().all(|way| way.arrivals() > 0)
    }),
    ("has a frame one way and a break the other", |ways| {
        ways.iter().any(|way| way.from[0].sending) && ways.iter().any(|way| way.from[0].in_break())
    }),
];

/// The frames under way, where both ways have one.
fn frames([there, back]: &[Way; WAYS]) -> Option<[UnderWay; WAYS]> {
    Some([there.from[0].frame?, back.from[0].frame?])
}

/// Of each way.
pub fn facts() -> impl Iterator<Item = &'static Fact> {
    let all = OF_SENDERS.iter().chain(&OF_RECEIVERS);
    all.chain(&OF_LONG_RUNS)
}

impl Way {
    pub fn always(&self, event: &str) -> bool {
        self.times(event) == self.ticks
    }

    pub fn arrivals(&self) -> u32 {
        self.times(ARRIVAL)
    }

    fn is_long(&self) -> bool {
        self.ticks >= LONG
    }

    /// A guard falls, and no break sets it anew.
    pub fn falls(&self) -> bool {
        self.times(GUARD_FALLS) > 0 && self.times(BREAK) == 0
    }

    pub fn keeps_waiting(&self) -> bool {
        self.from[0].waiting && self.times(BEGINS) == 0 && !self.from[1].sending
    }

    fn in_another_mode(&self) -> bool {
        of_another_mode(self.from[0].frame, self.from[0].sends())
    }

    fn hears_another_mode(&self) -> bool {
        of_another_mode(self.to[0].hearing, self.to[0].hears())
    }

    fn drops(&self) -> bool {
        self.to[0].hearing.is_some() && !self.to[0].listening
    }
}

/// Whether what is under way has another format than that of the mode.
fn of_another_mode(under_way: Option<UnderWay>, mode: Option<Format>) -> bool {
    under_way.is_some_and(|(format, _)| mode.is_some_and(|mode| mode != format))
}

/// Whether a clock makes a format another than that of mode 1 alone.
fn by_clock(view: &View, format: Option<Format>) -> bool {
    format != view.mode1.map(|mode1| decode(mode1, false))
}
