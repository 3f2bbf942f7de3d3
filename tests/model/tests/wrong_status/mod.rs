//! Wrong status bytes (P7 of the change requests): bytes that calls do not keep right, by
//! their faults, and programs that take a device whose byte alone is wrong otherwise than
//! as one just reset.

use crate::faults::{on_board, on_pair, Bytes, Fault};
use model::board::lines::{Make as MakeOnBoard, Side};
use model::board::{Answer as BoardAnswer, Call as BoardCall};
use model::calls::{Call, Lent};
use model::pair::lines::Make as MakeOnPair;
use model::pair::{named, Answer as PairAnswer, Call as PairCall, Pair};
use model::ranges::{fields_in_range, in_range, meant_status, restated, STATUS};
use model::session::UNITS;

// The bits of the status.
const TRANSMIT_READY: u8 = 1;
const RECEIVE_READY: u8 = 2;
const MARK: u8 = 4;
const PARITY: u8 = 8;
const OVERRUN: u8 = 16;
const FRAMING: u8 = 32;
const FLAGS: u8 = PARITY + OVERRUN + FRAMING;
const DCD: u8 = 64;
const DSR: u8 = 128;

/// A call that leaves bits as they were.
macro_rules! keeps {
    ($call:pat, $bits:expr) => {
        |call, refusal, before, after| {
            if matches!(call, $call) {
                keep(refusal, before, after, $bits);
            }
        }
    };
}

/// A call that lets bit 2 fall though the other of its two marks stays.
macro_rules! clears_both_marks {
    ($call:pat) => {
        |call, refusal, _, after| {
            if refusal == 0 && matches!(call, $call) {
                after[STATUS] &= !MARK;
            }
        }
    };
}

/// A program whose calls have a fault.
pub struct Wrong {
    pub name: &'static str,
    pub fault: Fault,
    pub on_pair: MakeOnPair,
    pub on_board: MakeOnBoard,
}

macro_rules! wrong {
    ($name:literal, $fault:expr) => {
        Wrong {
            name: $name,
            fault: $fault,
            on_pair: |pair, call| on_pair(pair, call, $fault),
            on_board: |side, call| on_board(side, call, $fault),
        }
    };
}

/// Bytes that are not kept right, or changed where they should be kept.
pub const FAULTS: &[Wrong] = &[
    wrong!("bit 0 is never moved", keeps!(_, TRANSMIT_READY)),
    wrong!("bit 1 is never moved", keeps!(_, RECEIVE_READY)),
    wrong!("bit 2 is never moved", keeps!(_, MARK)),
    wrong!("bit 3 is never moved", keeps!(_, PARITY)),
    wrong!("bit 4 is never moved", keeps!(_, OVERRUN)),
    wrong!("bit 5 is never moved", keeps!(_, FRAMING)),
    wrong!("bit 6 is never moved", keeps!(_, DCD)),
    wrong!("bit 7 is never moved", keeps!(_, DSR)),
    wrong!("a reset keeps the byte", keeps!(Call::Reset, 255)),
    wrong!(
        "a read of address 0 keeps bit 1",
        keeps!(Call::Read(0), RECEIVE_READY)
    ),
    wrong!("a status read keeps bit 2", keeps!(Call::Read(1), MARK)),
    wrong!(
        "a status read clears bit 2 over an empty-mark",
        clears_both_marks!(Call::Read(1))
    ),
    wrong!(
        "a character written keeps bit 0",
        keeps!(Call::Write(0, _), TRANSMIT_READY)
    ),
    wrong!(
        "a character written keeps bit 2",
        keeps!(Call::Write(0, _), MARK)
    ),
    wrong!(
        "a character written clears bit 2 over a change-mark",
        clears_both_marks!(Call::Write(0, _))
    ),
    wrong!(
        "a command keeps bit 0",
        keeps!(Call::Write(3, _), TRANSMIT_READY)
    ),
    wrong!(
        "a command keeps bit 1",
        keeps!(Call::Write(3, _), RECEIVE_READY)
    ),
    wrong!("a command keeps bit 2", keeps!(Call::Write(3, _), MARK)),
    wrong!(
        "a command clears bit 2 over a change-mark",
        clears_both_marks!(Call::Write(3, _))
    ),
    wrong!(
        "a command keeps the bits of the flags",
        keeps!(Call::Write(3, _), FLAGS)
    ),
    wrong!("pins keep bit 7", keeps!(Call::Pins(_), DSR)),
    wrong!("pins keep bit 6", keeps!(Call::Pins(_), DCD)),
    wrong!("pins keep bit 2", keeps!(Call::Pins(_), MARK)),
    wrong!(
        "a frame's first tick keeps bit 0",
        keeps!(Call::Transmit, TRANSMIT_READY)
    ),
    wrong!(
        "a frame's last tick keeps bit 2",
        keeps!(Call::Transmit, MARK)
    ),
    wrong!(
        "an arrival keeps bit 1",
        keeps!(Call::Receive(_), RECEIVE_READY)
    ),
    wrong!("an arrival keeps bit 3", keeps!(Call::Receive(_), PARITY)),
    wrong!("an arrival keeps bit 4", keeps!(Call::Receive(_), OVERRUN)),
    wrong!("an arrival keeps bit 5", keeps!(Call::Receive(_), FRAMING)),
    wrong!("a refused call clears the byte", refused_clears),
];

/// The same, of devices that are lent with a wrong byte.
pub const FAULTS_OUT_OF_RANGE: &[Wrong] = &[
    wrong!("a refused call mends the byte", refused_mends),
    wrong!("a call that is done keeps a wrong byte", done_keeps_wrong),
];

/// A call that is done, on a device in range.
fn keep(refusal: u8, before: &Bytes, after: &mut Bytes, bits: u8) {
    if refusal == 0 && in_range(before) {
        after[STATUS] = after[STATUS] & !bits | before[STATUS] & bits;
    }
}

fn refused_clears(_: &Call, refusal: u8, _: &Bytes, after: &mut Bytes) {
    if refusal != 0 {
        after[STATUS] = 0;
    }
}

fn refused_mends(_: &Call, refusal: u8, _: &Bytes, after: &mut Bytes) {
    if refusal != 0 && fields_in_range(after) {
        after[STATUS] = meant_status(after);
    }
}

fn done_keeps_wrong(call: &Call, refusal: u8, before: &Bytes, after: &mut Bytes) {
    let looks = matches!(call, Call::Outputs | Call::Peek | Call::InRange);
    if refusal == 0 && !looks && fields_in_range(before) && !in_range(before) {
        after[STATUS] = before[STATUS];
    }
}

/// A device whose status byte alone is wrong is given the right one.
fn mend(lent: &mut Lent) {
    if lent.wrong_status() != 0 {
        *lent = Lent::of_bytes(restated(lent.bytes()));
    }
}

fn mended(lent: &Lent) -> Lent {
    let mut mended = lent.clone();
    mend(&mut mended);
    mended
}

// The calls of one device.

pub type MakeOnDevice = fn(&mut Lent, &Call) -> (u8, Vec<u32>);

pub const ON_DEVICE: &[(&str, MakeOnDevice)] = &[
    ("a call that is done mends the byte", |lent, call| {
        let answer = lent.clone().call(call);
        match answer.0 {
            0 => {
                mend(lent);
                lent.call(call)
            }
            _ => answer,
        }
    }),
    ("a look shows the byte that is kept", |lent, call| {
        match (call, lent.wrong_status()) {
            (Call::Peek, 1..) => (0, vec![lent.bytes()[STATUS].into()]),
            _ => lent.call(call),
        }
    }),
    ("a look shows what the fields mean", |lent, call| {
        look_mended(lent, call, Call::Peek)
    }),
    ("outputs are those of the fields", |lent, call| {
        look_mended(lent, call, Call::Outputs)
    }),
    ("the range does not ask for the byte", |lent, call| {
        look_mended(lent, call, Call::InRange)
    }),
    ("a stamp is that of the fields", |lent, call| {
        look_mended(lent, call, Call::Stamp)
    }),
    ("a tally is that of the fields", |lent, call| {
        look_mended(lent, call, Call::TransmitTally)
    }),
];

fn look_mended(lent: &mut Lent, call: &Call, look: Call) -> (u8, Vec<u32>) {
    match *call == look {
        true => mended(lent).call(call),
        false => lent.call(call),
    }
}

// Pairs.

pub const ON_PAIR: &[(&str, MakeOnPair)] = &[
    ("a tick mends the byte", |pair, call| {
        mend_where(pair, call, |call| *call == PairCall::Tick)
    }),
    ("a run mends the byte", |pair, call| {
        mend_where(pair, call, |call| matches!(call, PairCall::Run(1..=65_535)))
    }),
    ("a run of 0 mends the byte", |pair, call| {
        mend_where(pair, call, |call| *call == PairCall::Run(0))
    }),
    ("a refused run mends the byte", |pair, call| {
        mend_where(pair, call, |call| matches!(call, PairCall::Run(65_536..)))
    }),
];

pub const ON_PAIR_BY_WAITS: &[(&str, MakeOnPair)] = &[
    ("a wait mends the byte", |pair, call| {
        mend_where(pair, call, |call| {
            matches!(call, PairCall::Wait(_, 1..=65_535))
        })
    }),
    ("a wait of limit 0 mends the byte", |pair, call| {
        mend_where(pair, call, |call| matches!(call, PairCall::Wait(_, 0)))
    }),
    ("a refused wait mends the byte", |pair, call| {
        mend_where(pair, call, |call| {
            matches!(call, PairCall::Wait(_, 65_536..))
        })
    }),
    (
        "a wait finds a character by a wrong byte",
        |pair, call| match *call {
            PairCall::Wait(number, ..=65_535) => {
                let unit = pair.end(named(number));
                let found = unit.bytes()[STATUS] & RECEIVE_READY != 0;
                match unit.wrong_status() != 0 && found {
                    true => (0, vec![0, 0]),
                    false => pair.call(call),
                }
            }
            _ => pair.call(call),
        },
    ),
];

fn mend_where(pair: &mut Pair, call: &PairCall, is: fn(&PairCall) -> bool) -> PairAnswer {
    if is(call) {
        UNITS.into_iter().for_each(|unit| mend(pair.end_mut(unit)));
    }
    pair.call(call)
}

// Boards.

pub const ON_BOARD: &[(&str, MakeOnBoard)] = &[
    ("a call that is done mends the byte", |side, call| {
        let looks = matches!(
            call,
            BoardCall::In(4 | 5) | BoardCall::Outputs(_) | BoardCall::Interrupts
        );
        if !looks && side.clone().call(call).0 == 0 {
            side.room.iter_mut().for_each(mend);
        }
        side.call(call)
    }),
    ("a refused call mends the byte", |side, call| {
        let answer = side.call(call);
        if answer.0 != 0 {
            side.room.iter_mut().for_each(mend);
        }
        answer
    }),
    (
        "a poll is by the fields under a wrong byte",
        |side, call| {
            look_at(
                side,
                call,
                |call| matches!(call, BoardCall::In(4 | 5)),
                mended,
            )
        },
    ),
    (
        "lines are by the fields under a wrong byte",
        |side, call| look_at(side, call, |call| *call == BoardCall::Interrupts, mended),
    ),
    ("a poll is by the byte that is kept", |side, call| {
        look_at(
            side,
            call,
            |call| matches!(call, BoardCall::In(4 | 5)),
            by_byte,
        )
    }),
    ("lines are by the byte that is kept", |side, call| {
        look_at(side, call, |call| *call == BoardCall::Interrupts, by_byte)
    }),
    ("outputs are those of the fields", |side, call| {
        look_at(
            side,
            call,
            |call| matches!(call, BoardCall::Outputs(_)),
            mended,
        )
    }),
];

/// A look at a room whose channels are taken otherwise; the room itself stays.
fn look_at(
    side: &mut Side,
    call: &BoardCall,
    is: fn(&BoardCall) -> bool,
    taken: fn(&Lent) -> Lent,
) -> BoardAnswer {
    if !is(call) {
        return side.call(call);
    }
    let mut other = side.clone();
    other.room = side.room.iter().map(taken).collect();
    other.call(call)
}

/// A device in range that has the interrupts of the byte that is kept.
fn by_byte(lent: &Lent) -> Lent {
    if lent.wrong_status() == 0 {
        return lent.clone();
    }
    let mut bytes = lent.bytes();
    let status = bytes[STATUS];
    // The transmit enable and nothing waiting, and the unread mark.
    bytes[3] = bytes[3] & !1 | status & TRANSMIT_READY;
    bytes[20..22].fill(0);
    bytes[44] = u8::from(status & RECEIVE_READY != 0);
    Lent::of_bytes(restated(bytes))
}
