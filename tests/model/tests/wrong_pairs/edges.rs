//! Runs that are wrong where they end beside something: the last tick of a frame, a
//! stop sample, a start.

use super::{ran, sending, settle, Bytes, Wrong, PHASE};
use model::pair::{Answer, Call, Pair};
use model::session::UNITS;

pub const ALL: &[Wrong] = &[
    ("a run ends before a frame's last tick", short_of_a_frame),
    ("a run ends before a stop sample", short_of_a_stop),
    ("a run ends before a start", short_of_a_start),
    ("a run ends behind a frame's last tick", past_a_frame),
    ("a run ends behind a stop sample", past_a_stop),
    ("a run ends behind a start", past_a_start),
    ("a run leaps past a frame's last tick", leaps_past_a_frame),
];

type Happens = fn(&Bytes, &Bytes) -> bool;

fn frame_ends(before: &Bytes, after: &Bytes) -> bool {
    sending(before) && !sending(after)
}

fn character_comes(before: &Bytes, after: &Bytes) -> bool {
    before[PHASE] == 2 && after[PHASE] != 2
}

fn start_comes(before: &Bytes, after: &Bytes) -> bool {
    before[PHASE] == 1 && after[PHASE] == 2
}

/// Does a tick. Whether something happens in it at one of the ends.
fn happens_in_tick(pair: &mut Pair, happens: Happens) -> bool {
    let before = UNITS.map(|unit| pair.end(unit).bytes());
    pair.tick();
    let after = UNITS.map(|unit| pair.end(unit).bytes());
    before.iter().zip(&after).any(|(b, a)| happens(b, a))
}

/// A run that ends with something lacks its last tick.
fn short_of(pair: &mut Pair, call: &Call, happens: Happens) -> Answer {
    ran(pair, call, |pair, ticks| {
        settle(pair);
        pair.run(ticks - 1);
        let before = pair.clone();
        if happens_in_tick(pair, happens) {
            *pair = before;
        }
    })
}

/// A run that ends just before something does that tick too.
fn past(pair: &mut Pair, call: &Call, happens: Happens) -> Answer {
    ran(pair, call, |pair, ticks| {
        pair.run(ticks);
        let before = pair.clone();
        if !happens_in_tick(pair, happens) {
            *pair = before;
        }
    })
}

fn short_of_a_frame(pair: &mut Pair, call: &Call) -> Answer {
    short_of(pair, call, frame_ends)
}

fn short_of_a_stop(pair: &mut Pair, call: &Call) -> Answer {
    short_of(pair, call, character_comes)
}

fn short_of_a_start(pair: &mut Pair, call: &Call) -> Answer {
    short_of(pair, call, start_comes)
}

fn past_a_frame(pair: &mut Pair, call: &Call) -> Answer {
    past(pair, call, frame_ends)
}

fn past_a_stop(pair: &mut Pair, call: &Call) -> Answer {
    past(pair, call, character_comes)
}

fn past_a_start(pair: &mut Pair, call: &Call) -> Answer {
    past(pair, call, start_comes)
}

/// The tick that ends a frame is not counted where the run goes on.
fn leaps_past_a_frame(pair: &mut Pair, call: &Call) -> Answer {
    ran(pair, call, |pair, ticks| {
        settle(pair);
        let mut left = ticks;
        while left > 0 {
            let ended = happens_in_tick(pair, frame_ends);
            left -= u32::from(!ended || left == 1);
        }
    })
}
