//! Senders that a run takes on otherwise than ticks do.

use super::{before_ticks, behind_ticks, change, ran, sending, settle, Bytes, Wrong};
use super::{BREAK, COMMAND, CTS, EMPTY_MARK, FULL, GUARD, MODE1, PLACE, TRANSMIT};
use model::pair::{Answer, Call, Pair};
use model::session::UNITS;

pub const ALL: &[Wrong] = &[
    ("a guard stays in a run", guard_stays),
    ("a guard stays with transmit off", guard_stays_off),
    ("a guard is over at once", no_guard),
    ("a break sets no guard", break_sets_none),
    ("a break sets a guard of 16", break_sets_sixteen),
    ("a break cuts a frame", break_cuts),
    ("transmit off cuts a frame", off_cuts),
    ("CTS is not looked at in a run", cts_overlooked),
    ("transmit is not looked at in a run", transmit_overlooked),
    ("a run sets no empty-mark", no_empty_mark),
    (
        "the empty-mark is set with a character waiting",
        mark_though_waiting,
    ),
    ("the empty-mark is set with transmit off", mark_though_off),
    ("a frame goes on in the mode of now", bent_frame),
    ("a run sends the waiting character twice", sent_twice),
];

fn breaking(bytes: &Bytes) -> bool {
    let on = TRANSMIT + BREAK;
    bytes[COMMAND] & on == on && bytes[CTS] == 0 && bytes[MODE1] != 0 && !sending(bytes)
}

fn guard_stays(pair: &mut Pair, call: &Call) -> Answer {
    behind_ticks(pair, call, |before, after| {
        if after[GUARD] < before[GUARD] {
            after[GUARD] = before[GUARD];
        }
    })
}

fn guard_stays_off(pair: &mut Pair, call: &Call) -> Answer {
    behind_ticks(pair, call, |before, after| {
        if before[COMMAND] & TRANSMIT == 0 {
            after[GUARD] = before[GUARD];
        }
    })
}

fn no_guard(pair: &mut Pair, call: &Call) -> Answer {
    before_ticks(pair, call, |bytes| {
        if !breaking(bytes) {
            bytes[GUARD] = 0;
        }
    })
}

fn break_sets_none(pair: &mut Pair, call: &Call) -> Answer {
    behind_ticks(pair, call, |before, after| {
        if breaking(before) {
            after[GUARD] = 0;
        }
    })
}

fn break_sets_sixteen(pair: &mut Pair, call: &Call) -> Answer {
    behind_ticks(pair, call, |before, after| {
        if breaking(before) {
            after[GUARD] = 16;
        }
    })
}

/// Its frame is gone.
fn cut(bytes: &mut Bytes) {
    bytes[12..20].fill(0);
}

fn break_cuts(pair: &mut Pair, call: &Call) -> Answer {
    before_ticks(pair, call, |bytes| {
        if bytes[COMMAND] & BREAK != 0 {
            cut(bytes);
        }
    })
}

fn off_cuts(pair: &mut Pair, call: &Call) -> Answer {
    before_ticks(pair, call, |bytes| {
        if bytes[COMMAND] & TRANSMIT == 0 {
            cut(bytes);
        }
    })
}

/// A byte is another one while it ticks.
fn overlooked(pair: &mut Pair, call: &Call, place: usize, bits: u8, value: u8) -> Answer {
    ran(pair, call, |pair, ticks| {
        settle(pair);
        let before = UNITS.map(|unit| pair.end(unit).bytes()[place]);
        for unit in UNITS {
            change(pair, unit, |bytes| {
                bytes[place] = bytes[place] & !bits | value;
            });
        }
        pair.run(ticks);
        for (unit, before) in UNITS.into_iter().zip(before) {
            change(pair, unit, |bytes| bytes[place] = before);
        }
    })
}

fn cts_overlooked(pair: &mut Pair, call: &Call) -> Answer {
    overlooked(pair, call, CTS, 1, 0)
}

fn transmit_overlooked(pair: &mut Pair, call: &Call) -> Answer {
    overlooked(pair, call, COMMAND, TRANSMIT, TRANSMIT)
}

fn no_empty_mark(pair: &mut Pair, call: &Call) -> Answer {
    behind_ticks(pair, call, |before, after| {
        after[EMPTY_MARK] = before[EMPTY_MARK];
    })
}

fn mark_though_waiting(pair: &mut Pair, call: &Call) -> Answer {
    behind_ticks(pair, call, |before, after| {
        let ended = sending(before) && !sending(after);
        if ended && after[FULL] == 1 && after[COMMAND] & TRANSMIT != 0 {
            after[EMPTY_MARK] = 1;
        }
    })
}

fn mark_though_off(pair: &mut Pair, call: &Call) -> Answer {
    behind_ticks(pair, call, |before, after| {
        let ended = sending(before) && !sending(after);
        if ended && after[FULL] == 0 && after[COMMAND] & TRANSMIT == 0 {
            after[EMPTY_MARK] = 1;
        }
    })
}

/// The parity of mode 1, on and even, is taken for that of the frame under way.
fn bent_frame(pair: &mut Pair, call: &Call) -> Answer {
    before_ticks(pair, call, |bytes| {
        if sending(bytes) && bytes[MODE1] != 0 {
            bytes[16] = bytes[MODE1] >> 5 & 1;
        }
    })
}

fn sent_twice(pair: &mut Pair, call: &Call) -> Answer {
    behind_ticks(pair, call, |before, after| {
        let began = !sending(before) && sending(after);
        if began && before[PLACE] == 0 {
            after[20..22].copy_from_slice(&before[20..22]);
        }
    })
}
