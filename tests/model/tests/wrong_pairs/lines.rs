//! Levels that go astray between the ends.

use super::{ran, Wrong};
use model::pair::{Answer, Call, Pair};

pub const ALL: &[Wrong] = &[
    ("each end hears itself", own_level),
    ("a level is heard a tick late", late),
    ("b hears a break for mark", mark_for_break),
    (
        "a tick answers its levels the other way round",
        answers_swapped,
    ),
    ("a tick answers one level", answers_one),
];

/// Runs whose ticks hand on other levels than those sent, first a's.
fn heard(pair: &mut Pair, call: &Call, hears: impl Fn([u8; 2], [u8; 2]) -> [u8; 2]) -> Answer {
    ran(pair, call, |pair, ticks| {
        let mut last = [1, 1];
        for _ in 0..ticks {
            let (a, b) = (pair.a.settled(), pair.b.settled());
            let sent = [a.transmit(), b.transmit()];
            let [from_a, from_b] = hears(sent, last);
            a.receive(from_b);
            b.receive(from_a);
            last = sent;
        }
    })
}

fn own_level(pair: &mut Pair, call: &Call) -> Answer {
    heard(pair, call, |[a, b], _| [b, a])
}

fn late(pair: &mut Pair, call: &Call) -> Answer {
    heard(pair, call, |_, last| last)
}

fn mark_for_break(pair: &mut Pair, call: &Call) -> Answer {
    ran(pair, call, |pair, ticks| {
        for _ in 0..ticks {
            let (a, b) = (pair.a.settled(), pair.b.settled());
            let [from_a, from_b] = [a.transmit(), b.transmit()];
            let breaks = !a.view().sending;
            a.receive(from_b);
            b.receive(from_a | u8::from(breaks));
        }
    })
}

fn answers_swapped(pair: &mut Pair, call: &Call) -> Answer {
    match (call, pair.call(call)) {
        (Call::Tick, (0, levels)) => (0, vec![levels[0] / 2 + 2 * (levels[0] % 2)]),
        (_, answer) => answer,
    }
}

fn answers_one(pair: &mut Pair, call: &Call) -> Answer {
    match (call, pair.call(call)) {
        (Call::Tick, (0, levels)) => (0, vec![levels[0] % 2]),
        (_, answer) => answer,
    }
}
