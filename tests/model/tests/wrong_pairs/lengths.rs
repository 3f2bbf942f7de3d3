//! Runs of another length.

use super::{ran, Wrong};
use model::pair::{Answer, Call, Pair, RUN_LIMIT, RUN_TOO_LONG};

pub const ALL: &[Wrong] = &[
    ("a run is a tick short", one_short),
    ("a run is a tick longer", one_more),
    ("a long run is a tick short", long_one_short),
    ("a run of 65535 does 700 ticks", longest_cut),
    ("65535 is refused", limit_refused),
    ("65536 is taken", above_limit_taken),
    ("a length is cut to 16 bits", cut),
    ("a pair that stands takes any length", standing_takes_any),
    ("a refused run does a tick", refused_ticks),
    ("a run of 0 does a tick", none_ticks),
    ("a run of 0 is refused", none_refused),
    ("a refused run answers another number", other_refusal),
];

fn one_short(pair: &mut Pair, call: &Call) -> Answer {
    ran(pair, call, |pair, ticks| {
        pair.run(ticks - 1);
    })
}

fn one_more(pair: &mut Pair, call: &Call) -> Answer {
    ran(pair, call, |pair, ticks| {
        pair.run(ticks);
        pair.tick();
    })
}

fn long_one_short(pair: &mut Pair, call: &Call) -> Answer {
    ran(pair, call, |pair, ticks| {
        pair.run(ticks - u32::from(ticks >= 1000));
    })
}

/// Two frames are over long before: but for the tallies nothing shows it.
fn longest_cut(pair: &mut Pair, call: &Call) -> Answer {
    match *call {
        Call::Run(RUN_LIMIT) => pair.call(&Call::Run(700)),
        _ => pair.call(call),
    }
}

fn refused(refusal: u8) -> Answer {
    (refusal, vec![refusal.into()])
}

fn limit_refused(pair: &mut Pair, call: &Call) -> Answer {
    match call {
        Call::Run(RUN_LIMIT) => refused(RUN_TOO_LONG),
        _ => pair.call(call),
    }
}

fn above_limit_taken(pair: &mut Pair, call: &Call) -> Answer {
    if *call != Call::Run(RUN_LIMIT + 1) {
        return pair.call(call);
    }
    pair.run(RUN_LIMIT);
    pair.tick();
    refused(0)
}

fn cut(pair: &mut Pair, call: &Call) -> Answer {
    match *call {
        Call::Run(ticks) => pair.call(&Call::Run(ticks % 65_536)),
        _ => pair.call(call),
    }
}

fn standing_takes_any(pair: &mut Pair, call: &Call) -> Answer {
    match *call {
        Call::Run(ticks) if ticks > RUN_LIMIT && pair.stands() => refused(0),
        _ => pair.call(call),
    }
}

fn refused_ticks(pair: &mut Pair, call: &Call) -> Answer {
    let answer = pair.call(call);
    if let (RUN_TOO_LONG, Call::Run(_)) = (answer.0, call) {
        pair.tick();
    }
    answer
}

fn none_ticks(pair: &mut Pair, call: &Call) -> Answer {
    if *call == Call::Run(0) {
        pair.tick();
    }
    pair.call(call)
}

fn none_refused(pair: &mut Pair, call: &Call) -> Answer {
    match call {
        Call::Run(0) => refused(RUN_TOO_LONG),
        _ => pair.call(call),
    }
}

fn other_refusal(pair: &mut Pair, call: &Call) -> Answer {
    match pair.call(call) {
        (RUN_TOO_LONG, _) => refused(21),
        answer => answer,
    }
}
