//! What each wrong program does to the tallies and stamps.

use super::Wrong;
use crate::faults::{on_board, on_pair, Bytes};
use model::calls::Call;
use model::chip::{number, set_number, RECEIVE_TALLY, STAMP, START, TRANSMIT_TALLY};
use model::ranges::{format, in_range};
use model::Format;

// Where it can be seen: see `Wrong`.
const CALLS: [bool; 3] = [false, false, false];
const BOARDS: [bool; 3] = [false, false, true];
const SHOWN: [bool; 3] = [false, true, true];
const PAIRS: [bool; 3] = [false, true, false];
const ALL_OF_THEM: [bool; 3] = [true, true, true];

macro_rules! wrong {
    ($name:literal, $fault:path, $seen:expr) => {
        Wrong {
            name: $name,
            fault: $fault,
            in_sessions: $seen[0],
            on_pair: match $seen[1] {
                true => Some(|pair, call| on_pair(pair, call, $fault)),
                false => None,
            },
            on_board: match $seen[2] {
                true => Some(|side, call| on_board(side, call, $fault)),
                false => None,
            },
        }
    };
}

pub const ALL: &[Wrong] = &[
    // The stamp of a character.
    wrong!("the stamp of the tick before", tick_before, ALL_OF_THEM),
    wrong!("the stamp of the tick behind", tick_behind, ALL_OF_THEM),
    wrong!("the stamp of the start bit", start_bit, ALL_OF_THEM),
    wrong!("the stamp of the other clock", other_clock, SHOWN),
    wrong!("a read clears the stamp", read_clears, ALL_OF_THEM),
    wrong!("a read stamps", read_stamps, ALL_OF_THEM),
    wrong!(
        "an emptied register has no stamp",
        emptied_clears,
        ALL_OF_THEM
    ),
    wrong!(
        "an overrun keeps the first stamp",
        overrun_keeps,
        ALL_OF_THEM
    ),
    wrong!("a false parity is not stamped", bad_unstamped, ALL_OF_THEM),
    wrong!("a reset keeps the stamp", reset_keeps::<STAMP>, ALL_OF_THEM),
    // The receive tally.
    wrong!(
        "ticks with receive off do not count",
        off_uncounted,
        ALL_OF_THEM
    ),
    wrong!(
        "ticks with DCD high do not count",
        dcd_uncounted,
        ALL_OF_THEM
    ),
    wrong!(
        "ticks with no mode do not count",
        unset_uncounted,
        ALL_OF_THEM
    ),
    wrong!(
        "ticks of a search do not count",
        search_uncounted,
        ALL_OF_THEM
    ),
    wrong!(
        "ticks within a character do not count",
        within_uncounted,
        ALL_OF_THEM
    ),
    wrong!("receive off puts the tally to 0", off_clears, ALL_OF_THEM),
    wrong!("a refused receive tick counts", refused_counts, BOARDS),
    wrong!("a refused tick of both counts", refused_both_counts, CALLS),
    wrong!("the receive tally stops", stops::<RECEIVE_TALLY>, SHOWN),
    wrong!("the receive tally has 31 bits", short::<RECEIVE_TALLY>, SHOWN),
    wrong!(
        "a reset keeps the receive tally",
        reset_keeps::<RECEIVE_TALLY>,
        ALL_OF_THEM
    ),
    // The start of a frame, and the transmit tally.
    wrong!("the start of a frame's last tick", last_tick, PAIRS),
    wrong!("the start of the tick before", start_before, SHOWN),
    wrong!("the start of the write", start_of_write, SHOWN),
    wrong!("the start of the other clock", start_other_clock, SHOWN),
    wrong!("a break stamps a start", break_starts, PAIRS),
    wrong!("a guard stamps a start", guard_starts, PAIRS),
    wrong!("mark stamps a start", mark_starts, SHOWN),
    wrong!("the end of a frame clears its start", end_clears, PAIRS),
    wrong!(
        "transmit ticks between frames do not count",
        idle_uncounted,
        SHOWN
    ),
    wrong!(
        "transmit ticks with transmit off do not count",
        disabled_uncounted,
        SHOWN
    ),
    wrong!("the transmit tally stops", stops::<TRANSMIT_TALLY>, SHOWN),
    wrong!("the transmit tally has 31 bits", short::<TRANSMIT_TALLY>, SHOWN),
    wrong!(
        "a reset keeps the transmit tally",
        reset_keeps::<TRANSMIT_TALLY>,
        SHOWN
    ),
    wrong!("a reset keeps the start", reset_keeps::<START>, SHOWN),
    // A device out of range.
    wrong!(
        "a device out of range keeps its tallies",
        out_keeps_tallies,
        SHOWN
    ),
    wrong!(
        "a device out of range keeps its stamps",
        out_keeps_stamps,
        SHOWN
    ),
    wrong!(
        "a refused call clears tallies out of range",
        refused_clears,
        BOARDS
    ),
];

// The bytes (docs/RANGES.md).
const ACCEPTED: usize = 2;
const COMMAND: usize = 3;
const DCD: usize = 10;
const CTS: usize = 11;
const GUARD: usize = 22;
const PHASE: usize = 32;
const COUNTDOWN: usize = 33;
const LOOK: usize = 36;
const UNREAD: usize = 44;

const TRANSMIT: u8 = 1;
const RECEIVE: u8 = 4;
const BREAK: u8 = 8;

fn received(call: &Call, refusal: u8) -> bool {
    refusal == 0 && matches!(call, Call::Receive(_))
}

fn transmitted(call: &Call, refusal: u8) -> bool {
    refusal == 0 && *call == Call::Transmit
}

fn listens(bytes: &Bytes) -> bool {
    bytes[COMMAND] & RECEIVE != 0 && bytes[DCD] == 0 && bytes[ACCEPTED] == 1 && in_range(bytes)
}

/// The format of the character that comes with a call, if one does.
fn comes(call: &Call, refusal: u8, before: &Bytes) -> Option<Format> {
    let heard = received(call, refusal) && listens(before) && before[PHASE] == 2;
    let format = format(&before[38..43]).filter(|_| heard)?;
    let stop_look = format.length + u32::from(format.parity) + 1;
    (before[COUNTDOWN] == 0 && u32::from(before[LOOK]) == stop_look).then_some(format)
}

fn sending(bytes: &Bytes) -> bool {
    bytes[18] != 0 || bytes[19] != 0
}

fn begins(call: &Call, refusal: u8, before: &Bytes, after: &Bytes) -> bool {
    transmitted(call, refusal) && !(sending(before) && in_range(before)) && sending(after)
}

fn ends(call: &Call, refusal: u8, before: &Bytes, after: &Bytes) -> bool {
    transmitted(call, refusal) && in_range(before) && sending(before) && !sending(after)
}

fn breaking(before: &Bytes) -> bool {
    let on = before[COMMAND] & (TRANSMIT + BREAK) == TRANSMIT + BREAK;
    on && before[CTS] == 0 && before[ACCEPTED] == 1 && !sending(before) && in_range(before)
}

fn keep(before: &Bytes, after: &mut Bytes, place: usize) {
    set_number(after, place, number(before, place));
}

fn copy(after: &mut Bytes, from: usize, to: usize, less: u32) {
    let number = number(after, from).wrapping_sub(less);
    set_number(after, to, number);
}

// Of any tally or stamp, by its place.

fn reset_keeps<const PLACE: usize>(call: &Call, refusal: u8, before: &Bytes, after: &mut Bytes) {
    if refusal == 0 && *call == Call::Reset && in_range(before) {
        keep(before, after, PLACE);
    }
}

/// A tick of the tally's own clock, of a device in range.
fn counts<const TALLY: usize>(call: &Call, refusal: u8, before: &Bytes) -> bool {
    let ticked = match TALLY {
        TRANSMIT_TALLY => transmitted(call, refusal),
        _ => received(call, refusal),
    };
    ticked && in_range(before)
}

/// Such ticks do not count where the fact is so.
fn uncounted<const TALLY: usize>(
    call: &Call,
    refusal: u8,
    before: &Bytes,
    after: &mut Bytes,
    fact: bool,
) {
    if counts::<TALLY>(call, refusal, before) && fact {
        keep(before, after, TALLY);
    }
}

fn stops<const TALLY: usize>(call: &Call, refusal: u8, before: &Bytes, after: &mut Bytes) {
    let last = number(before, TALLY) == u32::MAX;
    uncounted::<TALLY>(call, refusal, before, after, last);
}

fn short<const TALLY: usize>(call: &Call, refusal: u8, before: &Bytes, after: &mut Bytes) {
    if counts::<TALLY>(call, refusal, before) {
        let short = number(after, TALLY) & (u32::MAX >> 1);
        set_number(after, TALLY, short);
    }
}

// The stamp of a character.

fn tick_before(call: &Call, refusal: u8, before: &Bytes, after: &mut Bytes) {
    if comes(call, refusal, before).is_some() {
        copy(after, RECEIVE_TALLY, STAMP, 1);
    }
}

fn tick_behind(call: &Call, refusal: u8, before: &Bytes, after: &mut Bytes) {
    if comes(call, refusal, before).is_some() {
        copy(after, RECEIVE_TALLY, STAMP, u32::MAX);
    }
}

fn start_bit(call: &Call, refusal: u8, before: &Bytes, after: &mut Bytes) {
    if let Some(format) = comes(call, refusal, before) {
        copy(after, RECEIVE_TALLY, STAMP, format.stop_sample());
    }
}

fn other_clock(call: &Call, refusal: u8, before: &Bytes, after: &mut Bytes) {
    if comes(call, refusal, before).is_some() {
        copy(after, TRANSMIT_TALLY, STAMP, 0);
    }
}

fn read_clears(call: &Call, refusal: u8, _: &Bytes, after: &mut Bytes) {
    if refusal == 0 && *call == Call::Read(0) {
        set_number(after, STAMP, 0);
    }
}

fn read_stamps(call: &Call, refusal: u8, _: &Bytes, after: &mut Bytes) {
    if refusal == 0 && *call == Call::Read(0) {
        copy(after, RECEIVE_TALLY, STAMP, 0);
    }
}

fn emptied_clears(call: &Call, refusal: u8, before: &Bytes, after: &mut Bytes) {
    let empties = matches!(call, Call::Write(3, _)) && before[UNREAD] != after[UNREAD];
    if refusal == 0 && empties {
        set_number(after, STAMP, 0);
    }
}

fn overrun_keeps(call: &Call, refusal: u8, before: &Bytes, after: &mut Bytes) {
    if comes(call, refusal, before).is_some() && before[UNREAD] == 1 {
        keep(before, after, STAMP);
    }
}

/// A character with a new flag, parity or framing.
fn bad_unstamped(call: &Call, refusal: u8, before: &Bytes, after: &mut Bytes) {
    let flagged = before[56] != after[56] || before[58] != after[58];
    if comes(call, refusal, before).is_some() && flagged {
        keep(before, after, STAMP);
    }
}

// The receive tally.

fn off_uncounted(call: &Call, refusal: u8, before: &Bytes, after: &mut Bytes) {
    let off = before[COMMAND] & RECEIVE == 0;
    uncounted::<RECEIVE_TALLY>(call, refusal, before, after, off);
}

fn dcd_uncounted(call: &Call, refusal: u8, before: &Bytes, after: &mut Bytes) {
    uncounted::<RECEIVE_TALLY>(call, refusal, before, after, before[DCD] == 1);
}

fn unset_uncounted(call: &Call, refusal: u8, before: &Bytes, after: &mut Bytes) {
    uncounted::<RECEIVE_TALLY>(call, refusal, before, after, before[ACCEPTED] == 0);
}

fn search_uncounted(call: &Call, refusal: u8, before: &Bytes, after: &mut Bytes) {
    let searches = listens(before) && before[PHASE] == 1 && after[PHASE] == 1;
    uncounted::<RECEIVE_TALLY>(call, refusal, before, after, searches);
}

fn within_uncounted(call: &Call, refusal: u8, before: &Bytes, after: &mut Bytes) {
    let within = before[PHASE] == 2 && after[PHASE] == 2;
    uncounted::<RECEIVE_TALLY>(call, refusal, before, after, within);
}

fn off_clears(call: &Call, refusal: u8, _: &Bytes, after: &mut Bytes) {
    if refusal == 0 && matches!(call, Call::Write(3, value) if value & RECEIVE == 0) {
        set_number(after, RECEIVE_TALLY, 0);
    }
}

fn refused_counts(call: &Call, refusal: u8, before: &Bytes, after: &mut Bytes) {
    if refusal != 0 && matches!(call, Call::Receive(_)) && in_range(before) {
        copy(after, RECEIVE_TALLY, RECEIVE_TALLY, u32::MAX);
    }
}

fn refused_both_counts(call: &Call, refusal: u8, before: &Bytes, after: &mut Bytes) {
    if refusal != 0 && matches!(call, Call::Tick(_)) && in_range(before) {
        copy(after, TRANSMIT_TALLY, TRANSMIT_TALLY, u32::MAX);
    }
}

// The start of a frame, and the transmit tally.

/// And not at its first.
fn last_tick(call: &Call, refusal: u8, before: &Bytes, after: &mut Bytes) {
    if begins(call, refusal, before, after) && in_range(before) {
        keep(before, after, START);
    }
    if ends(call, refusal, before, after) {
        copy(after, TRANSMIT_TALLY, START, 0);
    }
}

fn start_before(call: &Call, refusal: u8, before: &Bytes, after: &mut Bytes) {
    if begins(call, refusal, before, after) {
        copy(after, TRANSMIT_TALLY, START, 1);
    }
}

fn start_of_write(call: &Call, refusal: u8, _: &Bytes, after: &mut Bytes) {
    if refusal == 0 && matches!(call, Call::Write(0, _)) {
        copy(after, TRANSMIT_TALLY, START, 0);
    }
}

fn start_other_clock(call: &Call, refusal: u8, before: &Bytes, after: &mut Bytes) {
    if begins(call, refusal, before, after) {
        copy(after, RECEIVE_TALLY, START, 0);
    }
}

fn break_starts(call: &Call, refusal: u8, before: &Bytes, after: &mut Bytes) {
    if transmitted(call, refusal) && breaking(before) {
        copy(after, TRANSMIT_TALLY, START, 0);
    }
}

/// A transmit tick that sends mark, in a guard or without one.
fn marks(call: &Call, refusal: u8, before: &Bytes, after: &Bytes) -> bool {
    let idle = !sending(before) && !sending(after) && in_range(before);
    transmitted(call, refusal) && idle && !breaking(before)
}

fn guard_starts(call: &Call, refusal: u8, before: &Bytes, after: &mut Bytes) {
    if marks(call, refusal, before, after) && before[GUARD] > 0 {
        copy(after, TRANSMIT_TALLY, START, 0);
    }
}

fn mark_starts(call: &Call, refusal: u8, before: &Bytes, after: &mut Bytes) {
    if marks(call, refusal, before, after) && before[GUARD] == 0 {
        copy(after, TRANSMIT_TALLY, START, 0);
    }
}

fn end_clears(call: &Call, refusal: u8, before: &Bytes, after: &mut Bytes) {
    if ends(call, refusal, before, after) {
        set_number(after, START, 0);
    }
}

fn idle_uncounted(call: &Call, refusal: u8, before: &Bytes, after: &mut Bytes) {
    let idle = marks(call, refusal, before, after);
    uncounted::<TRANSMIT_TALLY>(call, refusal, before, after, idle);
}

fn disabled_uncounted(call: &Call, refusal: u8, before: &Bytes, after: &mut Bytes) {
    let off = before[COMMAND] & TRANSMIT == 0;
    uncounted::<TRANSMIT_TALLY>(call, refusal, before, after, off);
}

// A device out of range.

/// A call that takes the device as one just reset.
fn mends(refusal: u8, before: &Bytes, after: &Bytes) -> bool {
    refusal == 0 && !in_range(before) && in_range(after)
}

fn out_keeps_tallies(_: &Call, refusal: u8, before: &Bytes, after: &mut Bytes) {
    if mends(refusal, before, after) {
        keep(before, after, TRANSMIT_TALLY);
        keep(before, after, RECEIVE_TALLY);
    }
}

fn out_keeps_stamps(_: &Call, refusal: u8, before: &Bytes, after: &mut Bytes) {
    if mends(refusal, before, after) {
        keep(before, after, START);
        keep(before, after, STAMP);
    }
}

fn refused_clears(_: &Call, refusal: u8, before: &Bytes, after: &mut Bytes) {
    if refusal != 0 && !in_range(before) {
        for place in [START, TRANSMIT_TALLY, STAMP, RECEIVE_TALLY] {
            set_number(after, place, 0);
        }
    }
}
