//! What only a host's waits have: numbers of units, limits of 32 bits, and devices out
//! of range.

use super::waits::{self, of_limit, that, Ending};
use crate::calls::Lent;
use crate::counts::Counts;
use crate::pair::{named, Pair};
use crate::ranges::STATUS;
use crate::session::{other, UNITS};
use crate::wait::WAIT_LIMIT;

/// The numbers of units whose low bits may be taken for others.
const NUMBERS: [u32; 7] = [0, 1, 2, 255, 256, 65_536, u32::MAX];
const ANOTHER: &str = "of another number";

type Limit = (&'static str, fn(u32) -> bool);

/// The limits that five digits cannot say, and those of which 16 bits would be none, or
/// a wait.
const LIMITS: [Limit; 4] = [
    ("100000 to 4294967294", |limit| {
        (100_000..u32::MAX).contains(&limit)
    }),
    ("4294967295", |limit| limit == u32::MAX),
    ("a multiple of 65536", |limit| limit > 0 && limit << 16 == 0),
    ("a multiple of 65536 and 1 to 999", |limit| {
        limit > WAIT_LIMIT && (1..1000).contains(&(limit % 65_536))
    }),
];

/// Which devices are out of range, by the unit that is named.
const RANGES: [&str; 4] = [
    "both in range",
    "its unit out of range",
    "the other out of range",
    "both out of range",
];
/// One that is out of range and whose bytes say that a character is unread.
const MARKED: &str = "its unit out of range and marked unread";
/// The byte of the mark (docs/RANGES.md).
const UNREAD: usize = 44;
/// One that is out of range by its status byte alone; so is one whose byte says that a
/// character is unread, and one whose mark says so.
const WRONG_STATUS: [&str; 3] = [
    "its unit's status byte alone wrong",
    "its unit's status byte alone wrong and unread by that byte",
    "its unit's status byte alone wrong and marked unread",
];
/// The other one, while the unit that is named is in range.
const OTHER_STATUS: &str = "the other's status byte alone wrong";
/// Its bit.
const RECEIVE_READY: u8 = 2;
/// Which no run from reset leaves with a character unread.
const RECEIVE_OFF: &str = "receive off at its unit";

fn on_number(number: &str) -> String {
    format!("wait on unit {number}")
}

fn with(ending: Ending, range: &str) -> String {
    that(&format!("{} with {range}", ending.name()))
}

/// What can be with each ending: a unit out of range holds no character, and gets none.
fn ranges(ending: Ending) -> Vec<&'static str> {
    match ending {
        Ending::Found => vec![RANGES[0], RANGES[2], OTHER_STATUS, RECEIVE_OFF],
        Ending::Brought => vec![RANGES[0], RANGES[2], OTHER_STATUS],
        _ => {
            let further = [MARKED, OTHER_STATUS].into_iter().chain(WRONG_STATUS);
            RANGES.into_iter().chain(further).collect()
        }
    }
}

pub fn name(counts: &mut Counts) {
    waits::name(counts);
    counts.name(LIMITS.map(|(limit, _)| of_limit(limit)));
    counts.name(NUMBERS.map(|number| on_number(&number.to_string())));
    counts.name([on_number(ANOTHER)]);
    for ending in Ending::ALL {
        let names = ranges(ending).into_iter().map(|range| with(ending, range));
        counts.name_places(UNITS.len(), names);
    }
}

/// Makes a wait on the pair, and counts what it does.
pub fn watch(counts: &mut Counts, pair: &mut Pair, number: u32, limit: u32) {
    let unit = named(number);
    let is_out = |unit| matches!(pair.end(unit), Lent::OutOfRange(_));
    let out = [is_out(unit), is_out(other(unit))].map(usize::from);
    let bytes = pair.end(unit).bytes();
    let marked = is_out(unit) && bytes[UNREAD] != 0;
    let is_wrong = |unit| pair.end(unit).wrong_status() != 0;
    let wrong_status = is_wrong(unit);
    let unread_by_status = wrong_status && bytes[STATUS] & RECEIVE_READY != 0;
    let other_status = is_wrong(other(unit)) && !is_out(unit);
    let receive_off = pair.end(unit).view().receive_off();
    let ending = waits::watch(counts, pair, unit, limit);
    let range = RANGES[out[0] + 2 * out[1]];
    for (fact, with_what) in [
        (true, range),
        (marked, MARKED),
        (wrong_status, WRONG_STATUS[0]),
        (unread_by_status, WRONG_STATUS[1]),
        (wrong_status && marked, WRONG_STATUS[2]),
        (other_status, OTHER_STATUS),
        (receive_off && ending == Ending::Found, RECEIVE_OFF),
    ] {
        if fact {
            counts.count_place(&with(ending, with_what), unit as usize);
        }
    }
    for (limit, _) in LIMITS.iter().filter(|(_, is)| is(limit)) {
        counts.count(&of_limit(limit));
    }
    let number = match NUMBERS.contains(&number) {
        true => number.to_string(),
        false => ANOTHER.to_string(),
    };
    counts.count(&on_number(&number));
}
