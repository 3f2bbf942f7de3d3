//! The status bytes of both ends (P7 of the change requests): the bits that runs, waits and
//! ticks set, and calls on ends in which the byte alone is wrong. All is counted where the
//! pair is shown behind the call.

use crate::counts::Counts;
use crate::pair::Pair;
use crate::reach::status::{count_bits, name_bits};
use crate::session::UNITS;

/// The calls that do ticks.
const TICKING: [&str; 3] = ["tick", "run", "wait"];

/// Those bits that a joined tick may set; it clears none. A single tick seldom brings a
/// flag.
const SET_BY_TICKS: [(&str, &[u8]); 3] = [
    (TICKING[0], &[0, 1, 2]),
    (TICKING[1], &[0, 1, 2, 3, 4, 5]),
    (TICKING[2], &[0, 1, 2, 3, 4, 5]),
];

fn sets(call: &str, bit: u8) -> String {
    format!("{call} that sets status bit {bit}, by end")
}

fn with_wrong(called: &str) -> String {
    format!("{called} with the status byte alone wrong, by end")
}

pub fn name(counts: &mut Counts, called: &[&str]) {
    for (call, bits) in SET_BY_TICKS {
        counts.name_places(UNITS.len(), bits.iter().map(|bit| sets(call, *bit)));
    }
    counts.name_places(UNITS.len(), called.iter().map(|called| with_wrong(called)));
    name_bits(counts);
}

/// The pair before a call that does ticks, and behind it.
pub fn watch(counts: &mut Counts, call: &str, before: &Pair, after: &Pair) {
    for (place, unit) in UNITS.into_iter().enumerate() {
        let [before, after] = [before, after].map(|pair| pair.end(unit).status());
        assert_eq!(before & !after, 0, "a joined tick clears no bit");
        let bits = SET_BY_TICKS.iter().find(|(known, _)| *known == call);
        let (_, bits) = bits.expect("a call that does ticks");
        for bit in bits
            .iter()
            .filter(|bit| (after & !before) >> **bit & 1 == 1)
        {
            counts.count_place(&sets(call, *bit), place);
        }
    }
}

/// A tick or a run, on the pair as it is before.
pub fn called(counts: &mut Counts, called: &str, pair: &Pair) {
    for (place, unit) in UNITS.into_iter().enumerate() {
        let wrong = pair.end(unit).wrong_status();
        if wrong != 0 {
            counts.count_place(&with_wrong(called), place);
            count_bits(counts, wrong);
        }
    }
}
