//! What waits for a character do, on the way to the unit that is named and on the way
//! back; the waits of sessions too.

use super::ticks::{BEGINS, ENDS};
use super::ticks::{BREAK, FALSE_START, FRAMING_FLAG, OVERRUNS, PARITY_FLAG, WAITS_AT_ZERO};
use super::ways::{run, Way};
use crate::counts::Counts;
use crate::pair::Pair;
use crate::session::{Unit, UNITS};
use crate::wait::WAIT_LIMIT;
use Ending::{Brought, Found, LimitZero, Refused, UsedUp};

/// From here on a limit is a long one, and a frame begins long after the wait does.
const LONG: u32 = 1000;
const LONG_AFTER: u32 = 16;

#[derive(Clone, Copy, Debug, PartialEq, Eq)]
pub enum Ending {
    Refused,
    LimitZero,
    Found,
    Brought,
    UsedUp,
}

impl Ending {
    pub const ALL: [Ending; 5] = [Refused, LimitZero, Found, Brought, UsedUp];

    pub fn name(&self) -> &'static str {
        match self {
            Refused => "is refused",
            LimitZero => "has limit 0",
            Found => "finds a character there",
            Brought => "brings a character",
            UsedUp => "uses up its limit",
        }
    }
}

/// A wait: its limit, whether a character was there, how it ends, and its two ways.
struct Wait {
    limit: u32,
    there: bool,
    ending: Ending,
    to: Way,
    back: Way,
}

impl Wait {
    fn is_long(&self) -> bool {
        self.limit >= LONG
    }

    fn count(&self, counts: &mut Counts, unit: Unit) {
        for (limit, _) in LIMITS.iter().filter(|(_, is)| is(self.limit)) {
            counts.count(&of_limit(limit));
        }
        let is_longest = self.ending == UsedUp && self.limit == WAIT_LIMIT;
        counts.count_if(is_longest, LONGEST);
        counts.count_place(&that(self.ending.name()), unit as usize);
        let facts = FACTS.iter().filter(|(ending, ..)| *ending == self.ending);
        for fact in facts.filter(|(_, _, holds)| holds(self)) {
            counts.count_place(&how(fact), unit as usize);
        }
    }
}

/// What is counted of the waits with some ending.
type Fact = (Ending, &'static str, fn(&Wait) -> bool);

const FACTS: [Fact; 39] = [
    (Refused, "with a character there", |wait| wait.there),
    (Refused, "with none there", |wait| !wait.there),
    (LimitZero, "with a character there", |wait| wait.there),
    (LimitZero, "with none there", |wait| !wait.there),
    (Found, "with a long limit", Wait::is_long),
    // When a character comes.
    (Brought, "in its first tick", |wait| wait.to.ticks == 1),
    (Brought, "in the last tick of its limit", |wait| {
        wait.to.ticks == wait.limit
    }),
    (Brought, "with a long limit", Wait::is_long),
    (UsedUp, "a tick before one comes", |wait| {
        wait.to.next_is_arrival()
    }),
    // Out of what it comes.
    (Brought, "of a frame under way", |wait| {
        wait.to.from[0].sending && wait.to.times(BEGINS) == 0
    }),
    (Brought, "of a frame that begins at once", |wait| {
        wait.to.begun == 1
    }),
    (Brought, "of a frame that begins later", |wait| {
        wait.to.begun > 1
    }),
    (Brought, "of a frame that begins long after", |wait| {
        wait.to.begun > LONG_AFTER
    }),
    (Brought, "behind another frame", |wait| {
        wait.to.begun > 0 && wait.to.times(ENDS) > 0
    }),
    (Brought, "behind a guard", |wait| {
        wait.to.begun > 0 && wait.to.from[0].guard > 0
    }),
    (Brought, "out of a break", |wait| wait.to.times(BREAK) > 0),
    (Brought, "behind a false start", |wait| {
        wait.to.times(FALSE_START) > 0
    }),
    (Brought, "behind a 0 that was waited out", |wait| {
        wait.to.times(WAITS_AT_ZERO) > 0
    }),
    (Brought, "with a parity flag", |wait| {
        wait.to.times(PARITY_FLAG) > 0
    }),
    (Brought, "with a framing flag", |wait| {
        wait.to.times(FRAMING_FLAG) > 0
    }),
    // What goes on the other way.
    (Brought, "while its unit sends a break", |wait| {
        wait.back.ticks > 1 && wait.back.always(BREAK)
    }),
    (Brought, "while its unit's guard falls", |wait| {
        wait.back.falls()
    }),
    (Brought, "while its unit begins a frame", |wait| {
        wait.back.begun > 0
    }),
    (Brought, "while the other gets one", |wait| {
        wait.back.arrivals() > 0
    }),
    (Brought, "while the other overruns", |wait| {
        wait.back.times(OVERRUNS) > 0
    }),
    (UsedUp, "while the other gets one", |wait| {
        wait.back.arrivals() > 0
    }),
    (UsedUp, "while the other overruns", |wait| {
        wait.back.times(OVERRUNS) > 0
    }),
    // Why none comes.
    (UsedUp, "with receive off", |wait| {
        wait.to.to[0].receive_off()
    }),
    (UsedUp, "with DCD high", |wait| wait.to.to[0].dcd_high()),
    (UsedUp, "with no mode to hear by", |wait| {
        wait.to.to[0].no_mode()
    }),
    (UsedUp, "at mark", |wait| wait.to.from[0].at_mark()),
    (UsedUp, "with a character kept waiting", |wait| {
        wait.to.keeps_waiting()
    }),
    (UsedUp, "with a break on the line", |wait| {
        wait.to.times(BREAK) > 0
    }),
    (UsedUp, "in a break that is waited out", |wait| {
        wait.to.ticks > 1 && wait.to.always(WAITS_AT_ZERO)
    }),
    (UsedUp, "with a false start", |wait| {
        wait.to.times(FALSE_START) > 0
    }),
    (UsedUp, "with a frame that begins", |wait| wait.to.begun > 0),
    (UsedUp, "with a guard that falls", |wait| wait.to.falls()),
    (UsedUp, "within a character", |wait| {
        wait.to.to[1].hearing.is_some()
    }),
    (UsedUp, "which is long", Wait::is_long),
];

type Limit = (&'static str, fn(u32) -> bool);

const LIMITS: [Limit; 8] = [
    ("0", |limit| limit == 0),
    ("1", |limit| limit == 1),
    ("2 to 999", |limit| (2..1000).contains(&limit)),
    ("1000 to 65534", |limit| (1000..WAIT_LIMIT).contains(&limit)),
    ("65535", |limit| limit == WAIT_LIMIT),
    ("65536", |limit| limit == WAIT_LIMIT + 1),
    ("65537 to 99998", |limit| (65_537..99_999).contains(&limit)),
    ("99999", |limit| limit == 99_999),
];

const BY_DIGITS: &str = "wait by the digits of its count, 1 to 4";
const FIVE_DIGITS: &str = "wait whose count has five digits";
const LONGEST: &str = "wait that uses up 65535";

pub fn that(what: &str) -> String {
    format!("wait that {what}, by unit")
}

fn how((ending, how, _): &Fact) -> String {
    that(&format!("{} {how}", ending.name()))
}

pub fn of_limit(limit: &str) -> String {
    format!("wait of limit {limit}")
}

pub fn name(counts: &mut Counts) {
    counts.name(LIMITS.map(|(limit, _)| of_limit(limit)));
    counts.name_places(4, [BY_DIGITS]);
    counts.name_dear([FIVE_DIGITS, LONGEST]);
    counts.name_places(UNITS.len(), Ending::ALL.map(|ending| that(ending.name())));
    counts.name_places(UNITS.len(), FACTS.iter().map(how));
}

/// Makes a wait on the pair, and counts what it does. How it ends.
pub fn watch(counts: &mut Counts, pair: &mut Pair, unit: Unit, limit: u32) -> Ending {
    let there = pair.end(unit).holds_unread();
    let answer = pair.clone().wait(unit, limit);
    let [from_a, from_b] = run(pair, answer.map_or(0, u32::from));
    let (to, back) = match unit {
        Unit::A => (from_b, from_a),
        Unit::B => (from_a, from_b),
    };
    let ending = match answer {
        Err(_) => Refused,
        Ok(_) if limit == 0 => LimitZero,
        Ok(_) if there => Found,
        Ok(_) if pair.end(unit).holds_unread() => Brought,
        Ok(_) => UsedUp,
    };
    let wait = Wait {
        limit,
        there,
        ending,
        to,
        back,
    };
    wait.count(counts, unit);
    if let Ok(spent) = answer {
        count_digits(counts, spent);
    }
    ending
}

fn count_digits(counts: &mut Counts, spent: u16) {
    match spent.to_string().len() {
        5 => counts.count(FIVE_DIGITS),
        digits => counts.count_place(BY_DIGITS, digits - 1),
    }
}
