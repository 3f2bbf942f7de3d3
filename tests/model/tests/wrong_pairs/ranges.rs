//! Devices out of range that are settled, or not.

use super::{is_out, ran, settle, Bytes, Wrong};
use model::calls::{Lent, DEVICE_BYTES};
use model::pair::{Answer, Call, Pair, RUN_TOO_LONG};
use model::ranges::restated;
use model::session::UNITS;

pub const ALL: &[Wrong] = &[
    ("a run of 0 settles", none_settles),
    ("a refused run settles", refused_settles),
    ("both are reset where one is out of range", both_reset),
    ("a tick resets both where one is", tick_resets_both),
    ("a run leaves b out of range", b_left),
    ("out of range is taken as zeros", taken_as_zeros),
];

fn none_settles(pair: &mut Pair, call: &Call) -> Answer {
    if *call == Call::Run(0) {
        settle(pair);
    }
    pair.call(call)
}

fn refused_settles(pair: &mut Pair, call: &Call) -> Answer {
    let answer = pair.call(call);
    if let (RUN_TOO_LONG, Call::Run(_)) = (answer.0, call) {
        settle(pair);
    }
    answer
}

fn reset_both(pair: &mut Pair) {
    if UNITS.iter().any(|unit| is_out(pair.end(*unit))) {
        *pair = Pair::just_reset();
    }
}

fn both_reset(pair: &mut Pair, call: &Call) -> Answer {
    ran(pair, call, |pair, ticks| {
        reset_both(pair);
        pair.run(ticks);
    })
}

fn tick_resets_both(pair: &mut Pair, call: &Call) -> Answer {
    if *call == Call::Tick {
        reset_both(pair);
    }
    pair.call(call)
}

fn b_left(pair: &mut Pair, call: &Call) -> Answer {
    ran(pair, call, |pair, ticks| {
        let before = pair.b.clone();
        pair.run(ticks);
        if is_out(&before) {
            pair.b = before;
        }
    })
}

fn taken_as_zeros(pair: &mut Pair, call: &Call) -> Answer {
    ran(pair, call, |pair, ticks| {
        let zeros: Bytes = restated([0; DEVICE_BYTES]);
        for unit in UNITS {
            if is_out(pair.end(unit)) {
                *pair.end_mut(unit) = Lent::of_bytes(zeros);
            }
        }
        pair.run(ticks);
    })
}
