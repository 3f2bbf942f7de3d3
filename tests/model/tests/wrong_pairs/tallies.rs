//! Runs and waits that count otherwise than their ticks do. What else they do is right,
//! but for those that are of another length and hide it.

use super::{change, ran, right, settle, waited, Bytes, Wrong};
use model::chip::{number, set_number, RECEIVE_TALLY, STAMP, START, TRANSMIT_TALLY};
use model::pair::{Answer, Call, Pair};
use model::session::UNITS;

pub const ALL: &[Wrong] = &[
    ("a run is a tick short and counts it", short_counted),
    ("a run is a tick longer and counts it not", longer_uncounted),
    ("a run counts one tick", one_tick),
    ("a run counts at a alone", a_alone),
    ("a run counts transmit ticks alone", transmits_alone),
    ("a run at rest counts nothing", rest_uncounted),
    ("a run counts by 16 bits", sixteen_bits),
    ("a run stops at the highest number", stops),
    ("a run stamps with its last tick", stamps_last),
    ("a run stamps with its first tick", stamps_first),
    ("a run stamps a start with its last tick", starts_last),
];

pub const WAITS: &[Wrong] = &[
    ("a wait counts its limit", counts_limit),
    ("a wait counts nothing", counts_nothing),
    ("a wait counts for its unit alone", unit_alone),
    ("a wait stamps a tick more", stamps_more),
];

const TALLIES: [usize; 2] = [TRANSMIT_TALLY, RECEIVE_TALLY];

/// The numbers at some places of both ends, by those that they had.
fn set(pair: &mut Pair, before: &Pair, places: &[usize], to: impl Fn(u32, u32) -> u32) {
    for unit in UNITS {
        let was = before.end(unit).bytes();
        change(pair, unit, |bytes| {
            for &place in places {
                let other = to(number(&was, place), number(bytes, place));
                set_number(bytes, place, other);
            }
        });
    }
}

/// A run that is done, and then changed by the pair before it.
fn then(pair: &mut Pair, call: &Call, further: impl Fn(&mut Pair, &Pair, u32)) -> Answer {
    ran(pair, call, |pair, ticks| {
        settle(pair);
        let before = pair.clone();
        pair.run(ticks);
        further(pair, &before, ticks);
    })
}

fn short_counted(pair: &mut Pair, call: &Call) -> Answer {
    ran(pair, call, |pair, ticks| {
        settle(pair);
        pair.run(ticks - 1);
        let before = pair.clone();
        set(pair, &before, &TALLIES, |was, _| was.wrapping_add(1));
    })
}

fn longer_uncounted(pair: &mut Pair, call: &Call) -> Answer {
    then(pair, call, |pair, _, _| {
        let before = pair.clone();
        pair.tick();
        set(pair, &before, &TALLIES, |was, _| was);
    })
}

fn one_tick(pair: &mut Pair, call: &Call) -> Answer {
    then(pair, call, |pair, before, _| {
        set(pair, before, &TALLIES, |was, _| was.wrapping_add(1));
    })
}

fn a_alone(pair: &mut Pair, call: &Call) -> Answer {
    then(pair, call, |pair, before, _| {
        let a = pair.a.clone();
        set(pair, before, &TALLIES, |was, _| was);
        pair.a = a;
    })
}

fn transmits_alone(pair: &mut Pair, call: &Call) -> Answer {
    then(pair, call, |pair, before, _| {
        set(pair, before, &[RECEIVE_TALLY], |was, _| was);
    })
}

fn rest_uncounted(pair: &mut Pair, call: &Call) -> Answer {
    then(pair, call, |pair, before, _| {
        if before.stands() {
            set(pair, before, &TALLIES, |was, _| was);
        }
    })
}

fn sixteen_bits(pair: &mut Pair, call: &Call) -> Answer {
    then(pair, call, |pair, before, _| {
        set(pair, before, &TALLIES, |was, is| {
            was & !65_535 | is & 65_535
        });
    })
}

fn stops(pair: &mut Pair, call: &Call) -> Answer {
    then(pair, call, |pair, before, ticks| {
        set(pair, before, &TALLIES, |was, _| was.saturating_add(ticks));
    })
}

/// What was stamped at a place, with another number, by an end before it and behind it.
fn stamped(pair: &mut Pair, before: &Pair, stamp: usize, by: fn(&Bytes, &Bytes) -> u32) {
    for unit in UNITS {
        let was = before.end(unit).bytes();
        change(pair, unit, |bytes| {
            if number(&was, stamp) != number(bytes, stamp) {
                let other = by(&was, bytes);
                set_number(bytes, stamp, other);
            }
        });
    }
}

fn stamps_last(pair: &mut Pair, call: &Call) -> Answer {
    then(pair, call, |pair, before, _| {
        stamped(pair, before, STAMP, |_, is| number(is, RECEIVE_TALLY));
    })
}

fn stamps_first(pair: &mut Pair, call: &Call) -> Answer {
    then(pair, call, |pair, before, _| {
        stamped(pair, before, STAMP, |was, _| {
            number(was, RECEIVE_TALLY).wrapping_add(1)
        });
    })
}

fn starts_last(pair: &mut Pair, call: &Call) -> Answer {
    then(pair, call, |pair, before, _| {
        stamped(pair, before, START, |_, is| number(is, TRANSMIT_TALLY));
    })
}

// Waits.

fn counts_limit(pair: &mut Pair, call: &Call) -> Answer {
    waited(pair, call, |pair, unit, limit| {
        let before = pair.clone();
        let spent = right(pair, unit, limit);
        if spent > 0 {
            let more = limit - u32::from(spent);
            set(pair, &before, &TALLIES, |_, is| is.wrapping_add(more));
        }
        spent
    })
}

fn counts_nothing(pair: &mut Pair, call: &Call) -> Answer {
    waited(pair, call, |pair, unit, limit| {
        let mut before = pair.clone();
        let spent = right(pair, unit, limit);
        if spent > 0 {
            settle(&mut before);
            set(pair, &before, &TALLIES, |was, _| was);
        }
        spent
    })
}

fn unit_alone(pair: &mut Pair, call: &Call) -> Answer {
    waited(pair, call, |pair, unit, limit| {
        let mut before = pair.clone();
        let spent = right(pair, unit, limit);
        if spent > 0 {
            settle(&mut before);
            let kept = pair.end(unit).clone();
            set(pair, &before, &TALLIES, |was, _| was);
            *pair.end_mut(unit) = kept;
        }
        spent
    })
}

fn stamps_more(pair: &mut Pair, call: &Call) -> Answer {
    waited(pair, call, |pair, unit, limit| {
        let mut before = pair.clone();
        let spent = right(pair, unit, limit);
        if spent > 0 {
            settle(&mut before);
            stamped(pair, &before, STAMP, |_, is| {
                number(is, STAMP).wrapping_add(1)
            });
        }
        spent
    })
}
