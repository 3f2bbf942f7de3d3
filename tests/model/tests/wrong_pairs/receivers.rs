//! Receivers that a run takes on otherwise than ticks do.

use super::{behind_ticks, change, ran, settle, Bytes, Wrong};
use super::{COMMAND, FRAMING, HOLDING, OVERRUN, PARITY, PHASE, RECEIVE, UNREAD};
use model::pair::{Answer, Call, Pair};
use model::session::UNITS;

pub const ALL: &[Wrong] = &[
    ("a run drops a parity flag", parity_dropped),
    ("a run drops a framing flag", framing_dropped),
    ("a run drops an overrun", overrun_dropped),
    ("a good character clears the flags", flags_cleared),
    ("what comes in a run is not unread", not_unread),
    ("a full register keeps its character", first_kept),
    ("receive off keeps the character under way", off_keeps),
    ("receive off keeps the mark", off_keeps_the_mark),
    ("a bad stop needs no mark behind it", searches_in_a_break),
    ("a waiting receiver has its mark", waits_for_nothing),
    ("a look is passed over", look_passed_over),
];

/// A character came: the register was filled, or its receiver left it.
fn came(before: &Bytes, after: &Bytes) -> bool {
    before[PHASE] == 2 && after[PHASE] != 2 && after[UNREAD] == 1
}

fn parity_dropped(pair: &mut Pair, call: &Call) -> Answer {
    behind_ticks(pair, call, |before, after| after[PARITY] = before[PARITY])
}

fn framing_dropped(pair: &mut Pair, call: &Call) -> Answer {
    behind_ticks(pair, call, |before, after| after[FRAMING] = before[FRAMING])
}

fn overrun_dropped(pair: &mut Pair, call: &Call) -> Answer {
    behind_ticks(pair, call, |before, after| after[OVERRUN] = before[OVERRUN])
}

fn flags_cleared(pair: &mut Pair, call: &Call) -> Answer {
    behind_ticks(pair, call, |before, after| {
        if came(before, after) && before[FRAMING..=PARITY] == after[FRAMING..=PARITY] {
            after[FRAMING..=PARITY].fill(0);
        }
    })
}

fn not_unread(pair: &mut Pair, call: &Call) -> Answer {
    behind_ticks(pair, call, |before, after| after[UNREAD] = before[UNREAD])
}

fn first_kept(pair: &mut Pair, call: &Call) -> Answer {
    behind_ticks(pair, call, |before, after| {
        if before[UNREAD] == 1 {
            after[HOLDING] = before[HOLDING];
        }
    })
}

fn off_keeps(pair: &mut Pair, call: &Call) -> Answer {
    behind_ticks(pair, call, |before, after| {
        if before[COMMAND] & RECEIVE == 0 && before[PHASE] == 2 {
            after[32..43].copy_from_slice(&before[32..43]);
        }
    })
}

fn off_keeps_the_mark(pair: &mut Pair, call: &Call) -> Answer {
    behind_ticks(pair, call, |before, after| {
        if before[COMMAND] & RECEIVE == 0 && before[PHASE] == 1 {
            after[PHASE] = 1;
        }
    })
}

fn searches_in_a_break(pair: &mut Pair, call: &Call) -> Answer {
    behind_ticks(pair, call, |before, after| {
        if came(before, after) {
            after[PHASE] = 1;
        }
    })
}

fn waits_for_nothing(pair: &mut Pair, call: &Call) -> Answer {
    ran(pair, call, |pair, ticks| {
        settle(pair);
        for unit in UNITS {
            change(pair, unit, |bytes| {
                if bytes[PHASE] == 0 && bytes[COMMAND] & RECEIVE != 0 {
                    bytes[PHASE] = 1;
                }
            });
        }
        pair.run(ticks);
    })
}

/// In a run of many ticks, a look at a bit of the data takes a 1.
fn look_passed_over(pair: &mut Pair, call: &Call) -> Answer {
    behind_ticks(pair, call, |before, after| {
        let looked = before[PHASE] == 2 && before[33] == 0 && after[PHASE] == 2;
        let bit = before[36].wrapping_sub(1);
        if looked && before[38] > 1 && bit < before[39] {
            after[34] |= 1 << bit;
        }
    })
}
