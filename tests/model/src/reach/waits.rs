//! The waits of sessions: what they do, as those of a lent pair are counted, and their
//! lines by the text.

use crate::calls::Lent;
use crate::counts::Counts;
use crate::delivery::reached;
use crate::pair;
use crate::pair::reach::waits;
use crate::session::{lines, parse, Pair, Record, Unit};

const ZEROS: &str = "wait's line with zeros before its limit";
const NO_NEWLINE: &str = "wait's line that is the last and lacks its newline";
const TOO_LONG: &str = "refusal 7 of a wait's line";

// Why a line that is nearly a wait is refused with 6.
const SIX_DIGITS: &str = "refusal 6 of a wait's line: six digits or more";
const NO_NUMBER: &str = "refusal 6 of a wait's line: no number";
const NO_UNIT: &str = "refusal 6 of a wait's line: no such unit";
const LOWER_CASE: &str = "refusal 6 of a wait's line: lower case";
const FEW_FIELDS: &str = "refusal 6 of a wait's line: too few fields";
const MANY_FIELDS: &str = "refusal 6 of a wait's line: too many fields";

pub fn name(counts: &mut Counts) {
    waits::name(counts);
    counts.name(reached::OF_WAITS);
    counts.name(["refusal 21", ZEROS, NO_NEWLINE, TOO_LONG]);
    counts.name([SIX_DIGITS, NO_NUMBER, NO_UNIT]);
    counts.name([LOWER_CASE, FEW_FIELDS, MANY_FIELDS]);
}

/// A wait on two chips, which is done on a copy.
pub fn watch(counts: &mut Counts, chips: &Pair, unit: Unit, limit: u32) {
    let [a, b] = [&chips.a, &chips.b].map(|chip| Lent::InRange(chip.clone()));
    waits::watch(counts, &mut pair::Pair { a, b }, unit, limit);
}

/// The lines of a session that are waits, or nearly.
pub fn watch_lines(counts: &mut Counts, input: &[u8]) {
    for line in lines(input) {
        let name = match parse(line) {
            Ok(Record::Wait(..)) => has_zeros(line).then_some(ZEROS),
            Err(6) => fault(line),
            Err(7) => line.starts_with(b"B\t").then_some(TOO_LONG),
            _ => None,
        };
        name.into_iter().for_each(|name| counts.count(name));
    }
    let last = lines(input).last().unwrap_or_default();
    let waits = matches!(parse(last), Ok(Record::Wait(..)));
    counts.count_if(waits && !input.ends_with(b"\n"), NO_NEWLINE);
}

fn has_zeros(wait: &[u8]) -> bool {
    // Behind the letter, the unit and their tabs.
    wait.len() > 5 && wait[4] == b'0'
}

/// What is wrong with a line of no shape, where it is one fault of a wait.
fn fault(line: &[u8]) -> Option<&'static str> {
    let fields: Vec<&[u8]> = line.split(|&byte| byte == b'\t').collect();
    let is_unit = |field: &[u8]| matches!(field, b"A" | b"B");
    let is_number = |field: &[u8]| !field.is_empty() && field.iter().all(u8::is_ascii_digit);
    match fields[..] {
        [b"B"] | [b"B", _] => Some(FEW_FIELDS),
        [b"B", _, _, _, ..] => Some(MANY_FIELDS),
        [b"b", unit, limit] => (is_unit(unit) && is_number(limit)).then_some(LOWER_CASE),
        [b"B", b"a" | b"b", limit] if is_number(limit) => Some(LOWER_CASE),
        [b"B", unit, limit] => match (is_unit(unit), is_number(limit)) {
            (true, true) => Some(SIX_DIGITS),
            (true, false) => Some(NO_NUMBER),
            (false, true) => Some(NO_UNIT),
            (false, false) => None,
        },
        _ => None,
    }
}
