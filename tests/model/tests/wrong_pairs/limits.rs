//! Waits on another unit, with another limit, and on devices out of range.

use super::{is_out, right, settle, waited, Wrong, UNREAD};
use model::pair::{named, Answer, Call, Pair};
use model::session::{other, UNITS};
use model::wait::{WAIT_LIMIT, WAIT_TOO_LONG};

pub const ALL: &[Wrong] = &[
    ("the low bit names a unit", by_low_bit),
    ("a unit's number is cut to 8 bits", cut_to_8),
    ("a unit's number is cut to 16 bits", cut_to_16),
    ("1 alone names b", one_alone),
    ("0 names b", swapped),
    ("a limit of 65535 is refused", limit_refused),
    ("a limit of 65536 is taken", above_taken),
    ("a limit is cut to 16 bits", limit_cut),
    ("a character there comes before 21", there_first),
    ("a refused wait does a tick", refused_ticks),
    ("a refused wait answers another number", other_refusal),
    ("a refused wait answers its limit", refused_counts),
    ("a limit of 0 does a tick", none_ticks),
    ("a limit of 0 is refused", none_refused),
    ("a refused wait settles", refused_settles),
    ("a limit of 0 settles", none_settles),
    ("a character there settles the other", there_settles),
    ("a unit marked unread out of range holds one", marked_holds),
    ("a unit out of range is not waited on", out_is_over),
    ("a wait resets both where one is out of range", both_reset),
    ("a wait leaves the other out of range", other_left),
];

/// A wait by another number of its unit.
fn renumbered(pair: &mut Pair, call: &Call, number: fn(u32) -> u32) -> Answer {
    match *call {
        Call::Wait(unit, limit) => pair.call(&Call::Wait(number(unit), limit)),
        _ => pair.call(call),
    }
}

fn by_low_bit(pair: &mut Pair, call: &Call) -> Answer {
    renumbered(pair, call, |number| number % 2)
}

fn cut_to_8(pair: &mut Pair, call: &Call) -> Answer {
    renumbered(pair, call, |number| number % 256)
}

fn cut_to_16(pair: &mut Pair, call: &Call) -> Answer {
    renumbered(pair, call, |number| number % 65_536)
}

fn one_alone(pair: &mut Pair, call: &Call) -> Answer {
    renumbered(pair, call, |number| u32::from(number == 1))
}

fn swapped(pair: &mut Pair, call: &Call) -> Answer {
    renumbered(pair, call, |number| u32::from(number == 0))
}

fn refused(refusal: u8) -> Answer {
    (refusal, vec![refusal.into(), 0])
}

fn limit_refused(pair: &mut Pair, call: &Call) -> Answer {
    match *call {
        Call::Wait(_, WAIT_LIMIT) => refused(WAIT_TOO_LONG),
        _ => pair.call(call),
    }
}

fn above_taken(pair: &mut Pair, call: &Call) -> Answer {
    match *call {
        Call::Wait(number, limit) if limit == WAIT_LIMIT + 1 => {
            pair.call(&Call::Wait(number, WAIT_LIMIT))
        }
        _ => pair.call(call),
    }
}

fn limit_cut(pair: &mut Pair, call: &Call) -> Answer {
    match *call {
        Call::Wait(number, limit) => pair.call(&Call::Wait(number, limit % 65_536)),
        _ => pair.call(call),
    }
}

fn there_first(pair: &mut Pair, call: &Call) -> Answer {
    match *call {
        Call::Wait(number, _) if pair.end(named(number)).holds_unread() => refused(0),
        _ => pair.call(call),
    }
}

/// Something is done to the pair behind a wait that is refused.
fn behind_refused(pair: &mut Pair, call: &Call, further: fn(&mut Pair)) -> Answer {
    let answer = pair.call(call);
    if answer.0 == WAIT_TOO_LONG {
        further(pair);
    }
    answer
}

fn refused_ticks(pair: &mut Pair, call: &Call) -> Answer {
    behind_refused(pair, call, |pair| {
        pair.tick();
    })
}

fn refused_settles(pair: &mut Pair, call: &Call) -> Answer {
    behind_refused(pair, call, settle)
}

fn other_refusal(pair: &mut Pair, call: &Call) -> Answer {
    match pair.call(call) {
        (WAIT_TOO_LONG, _) => refused(16),
        answer => answer,
    }
}

fn refused_counts(pair: &mut Pair, call: &Call) -> Answer {
    match pair.call(call) {
        (WAIT_TOO_LONG, _) => (WAIT_TOO_LONG, vec![WAIT_TOO_LONG.into(), 65_535]),
        answer => answer,
    }
}

fn none_ticks(pair: &mut Pair, call: &Call) -> Answer {
    if let Call::Wait(_, 0) = call {
        pair.tick();
    }
    pair.call(call)
}

fn none_refused(pair: &mut Pair, call: &Call) -> Answer {
    match *call {
        Call::Wait(_, 0) => refused(WAIT_TOO_LONG),
        _ => pair.call(call),
    }
}

fn none_settles(pair: &mut Pair, call: &Call) -> Answer {
    if let Call::Wait(_, 0) = call {
        settle(pair);
    }
    pair.call(call)
}

fn there_settles(pair: &mut Pair, call: &Call) -> Answer {
    waited(pair, call, |pair, unit, limit| {
        if pair.end(unit).holds_unread() {
            settle(pair);
        }
        right(pair, unit, limit)
    })
}

fn marked_holds(pair: &mut Pair, call: &Call) -> Answer {
    waited(pair, call, |pair, unit, limit| {
        match pair.end(unit).bytes()[UNREAD] {
            0 => right(pair, unit, limit),
            _ => 0,
        }
    })
}

fn out_is_over(pair: &mut Pair, call: &Call) -> Answer {
    waited(pair, call, |pair, unit, limit| {
        match is_out(pair.end(unit)) {
            true => 0,
            false => right(pair, unit, limit),
        }
    })
}

fn both_reset(pair: &mut Pair, call: &Call) -> Answer {
    waited(pair, call, |pair, unit, limit| {
        let out = UNITS.iter().any(|&unit| is_out(pair.end(unit)));
        if out && limit > 0 && !pair.end(unit).holds_unread() {
            *pair = Pair::just_reset();
        }
        right(pair, unit, limit)
    })
}

fn other_left(pair: &mut Pair, call: &Call) -> Answer {
    waited(pair, call, |pair, unit, limit| {
        let before = pair.end(other(unit)).clone();
        let spent = right(pair, unit, limit);
        if is_out(&before) {
            *pair.end_mut(other(unit)) = before;
        }
        spent
    })
}
