//! Wrong pairs: what each does with a call. `all` names them, but for those that wait
//! wrongly, which `all_waits` names.

mod edges;
mod lengths;
mod limits;
mod lines;
mod ranges;
mod receivers;
mod senders;
mod step;
mod tallies;
mod waits;

use model::calls::{Lent, DEVICE_BYTES};
use model::pair::lines::Make;
use model::pair::{named, Answer, Call, Pair, RUN_LIMIT};
use model::ranges::{meant_status, wrong_bits, STATUS};
use model::session::{Unit, UNITS};
use model::wait::WAIT_LIMIT;

pub type Wrong = (&'static str, Make);

pub fn all() -> Vec<Wrong> {
    [
        lengths::ALL,
        ranges::ALL,
        lines::ALL,
        senders::ALL,
        receivers::ALL,
        edges::ALL,
        step::ALL,
        tallies::ALL,
    ]
    .concat()
}

pub fn all_waits() -> Vec<Wrong> {
    [waits::ALL, limits::ALL, tallies::WAITS].concat()
}

/// Waits that are done otherwise, by the ticks that they say they spend; other calls are
/// right, also waits that are refused.
fn waited(pair: &mut Pair, call: &Call, wait: impl Fn(&mut Pair, Unit, u32) -> u16) -> Answer {
    match *call {
        Call::Wait(number, limit @ ..=WAIT_LIMIT) => {
            let spent = wait(pair, named(number), limit);
            (0, vec![0, spent.into()])
        }
        _ => pair.call(call),
    }
}

/// The ticks of a right wait, whose limit is not too high.
fn right(pair: &mut Pair, unit: Unit, limit: u32) -> u16 {
    pair.wait(unit, limit).expect("no limit that is too high")
}

/// Runs that are done otherwise; other calls are right, also runs of 0.
fn ran(pair: &mut Pair, call: &Call, run: impl Fn(&mut Pair, u32)) -> Answer {
    match *call {
        Call::Run(ticks @ 1..=RUN_LIMIT) => {
            run(pair, ticks);
            (0, vec![0])
        }
        _ => pair.call(call),
    }
}

/// Runs in which something is done to each end behind each tick, by its bytes before
/// the tick.
fn behind_ticks(pair: &mut Pair, call: &Call, further: fn(&Bytes, &mut Bytes)) -> Answer {
    ran(pair, call, |pair, ticks| {
        for _ in 0..ticks {
            settle(pair);
            let before = UNITS.map(|unit| pair.end(unit).bytes());
            pair.tick();
            for (unit, before) in UNITS.into_iter().zip(before) {
                change(pair, unit, |after| further(&before, after));
            }
        }
    })
}

/// Runs in which each end is changed before each tick.
fn before_ticks(pair: &mut Pair, call: &Call, first: fn(&mut Bytes)) -> Answer {
    ran(pair, call, |pair, ticks| {
        for _ in 0..ticks {
            settle(pair);
            UNITS.into_iter().for_each(|unit| change(pair, unit, first));
            pair.tick();
        }
    })
}

/// The bytes of a device (docs/RANGES.md).
type Bytes = [u8; DEVICE_BYTES];

// The places of what the wrong pairs look at.
const MODE1: usize = 0;
const COMMAND: usize = 3;
const CTS: usize = 11;
const PLACE: usize = 18;
const FULL: usize = 21;
const GUARD: usize = 22;
const PHASE: usize = 32;
const HOLDING: usize = 43;
const UNREAD: usize = 44;
const FRAMING: usize = 56;
const OVERRUN: usize = 57;
const PARITY: usize = 58;
const EMPTY_MARK: usize = 59;

// The bits of the command.
const TRANSMIT: u8 = 1;
const RECEIVE: u8 = 4;
const BREAK: u8 = 8;

/// The status byte stays as right as it is.
fn change(pair: &mut Pair, unit: Unit, change: impl Fn(&mut Bytes)) {
    let mut bytes = pair.end(unit).bytes();
    let wrong = wrong_bits(&bytes);
    change(&mut bytes);
    bytes[STATUS] = meant_status(&bytes) ^ wrong;
    *pair.end_mut(unit) = Lent::of_bytes(bytes);
}

fn is_out(lent: &Lent) -> bool {
    matches!(lent, Lent::OutOfRange(_))
}

fn settle(pair: &mut Pair) {
    UNITS.into_iter().for_each(|unit| {
        pair.end_mut(unit).settled();
    });
}

/// A frame is under way; its place has two bytes.
fn sending(bytes: &Bytes) -> bool {
    bytes[PLACE] != 0 || bytes[PLACE + 1] != 0
}
