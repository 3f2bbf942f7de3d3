//! What runs and waits do to the tallies of both ends, and to what these stamp (P4 of the
//! change requests). All is counted where the pair is shown behind the call.

use crate::chip::View;
use crate::counts::Counts;
use crate::pair::Pair;
use crate::session::UNITS;

/// An end before a call of some ticks, and behind it.
struct End {
    before: View,
    after: View,
}

impl End {
    /// The ticks since: a run has at most 65,535 of them.
    fn ticks(&self) -> u32 {
        let ticks = self.after.receive_tally;
        ticks.wrapping_sub(self.before.receive_tally)
    }

    fn transmit_wraps(&self) -> bool {
        self.after.transmit_tally < self.before.transmit_tally
    }

    fn receive_wraps(&self) -> bool {
        self.after.receive_tally < self.before.receive_tally
    }

    /// Whether a character came in these ticks: its stamp is one of theirs.
    fn stamps(&self) -> bool {
        let age = self.after.receive_tally.wrapping_sub(self.after.stamp);
        age < self.ticks() && self.after.stamp != self.before.stamp
    }

    fn starts(&self) -> bool {
        let age = self.after.transmit_tally.wrapping_sub(self.after.start);
        age < self.ticks() && self.after.start != self.before.start
    }
}

type Fact = (&'static str, fn(&End) -> bool);

/// What is counted of each end, for runs and for waits.
const FACTS: [Fact; 12] = [
    ("in which its transmit tally wraps", End::transmit_wraps),
    ("in which its receive tally wraps", End::receive_wraps),
    ("that stamps a character", End::stamps),
    ("that stamps a character and goes on", |end| {
        end.stamps() && end.after.stamp != end.after.receive_tally
    }),
    ("that stamps a character before the wrap", |end| {
        end.stamps() && end.receive_wraps() && end.after.stamp > end.after.receive_tally
    }),
    ("that stamps a character behind the wrap", |end| {
        end.stamps() && end.receive_wraps() && end.after.stamp <= end.after.receive_tally
    }),
    ("that stamps a start before the wrap", |end| {
        end.starts() && end.transmit_wraps() && end.after.start > end.after.transmit_tally
    }),
    ("that stamps a start behind the wrap", |end| {
        end.starts() && end.transmit_wraps() && end.after.start <= end.after.transmit_tally
    }),
    ("that counts ticks with receive off", |end| {
        end.ticks() > 0 && end.before.receive_off()
    }),
    ("that counts ticks with DCD high", |end| {
        end.ticks() > 0 && end.before.dcd_high()
    }),
    ("that counts ticks with no mode", |end| {
        end.ticks() > 0 && end.before.no_mode()
    }),
    ("that counts ticks of a break", |end| {
        end.ticks() > 0 && end.before.in_break() && end.after.start == end.before.start
    }),
];

/// A call that does no tick, of a pair in which one would make a tally wrap.
const LEFT: [&str; 2] = ["run of 0", "refused run"];

fn name_of(call: &str, what: &str) -> String {
    format!("{call} {what}, by end")
}

fn would_wrap(called: &str) -> String {
    name_of(called, "with a tally at 4294967295")
}

pub fn name(counts: &mut Counts) {
    for call in ["run", "wait"] {
        counts.name_places(UNITS.len(), FACTS.map(|(what, _)| name_of(call, what)));
    }
    counts.name_places(UNITS.len(), LEFT.map(would_wrap));
}

/// A run or a wait that is done, or a wait that does no tick.
pub fn watch(counts: &mut Counts, call: &str, before: &Pair, after: &Pair) {
    for (place, unit) in UNITS.into_iter().enumerate() {
        let [before, after] = [before, after].map(|pair| pair.end(unit).view());
        let end = End { before, after };
        for (what, _) in FACTS.iter().filter(|(_, holds)| holds(&end)) {
            counts.count_place(&name_of(call, what), place);
        }
    }
}

pub fn left(counts: &mut Counts, called: &str, pair: &Pair) {
    for (place, unit) in UNITS.into_iter().enumerate() {
        let view = pair.end(unit).view();
        if [view.transmit_tally, view.receive_tally].contains(&u32::MAX) {
            counts.count_place(&would_wrap(called), place);
        }
    }
}
