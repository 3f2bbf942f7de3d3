//! Short cuts of a run up to the end of a frame, for a receiver that is taken for one
//! in step with it though it is only nearly so: what differs is overlooked.

use super::{change, ran, sending, settle, Bytes, Wrong};
use model::pair::hearing::{self, Receiver};
use model::pair::{Answer, Call, Pair};
use model::ranges::format;
use model::session::{other, UNITS};

/// By the bytes that are overlooked.
pub const ALL: &[Wrong] = &[
    (
        "a receiver without its mark is overlooked",
        overlooked::<0, 9>,
    ),
    ("a countdown is overlooked", overlooked::<1, 1>),
    ("a value is overlooked", overlooked::<2, 2>),
    ("a wrong parity is overlooked", overlooked::<3, 3>),
    ("a look is overlooked", overlooked::<4, 4>),
    ("a slip is overlooked", overlooked::<1, 4>),
    ("a factor is overlooked", overlooked::<6, 6>),
    ("a length is overlooked", overlooked::<7, 7>),
    ("a parity is overlooked", overlooked::<8, 8>),
    ("a kind of parity is overlooked", overlooked::<9, 9>),
];

/// The receiver in step with a frame under way, and the ticks that are left of it.
fn in_step(sender: &Bytes) -> Option<(Receiver, u32)> {
    let format = format(&sender[13..18]).filter(|_| sending(sender))?;
    let place = u16::from_le_bytes([sender[18], sender[19]]);
    let receiver = hearing::in_step(&format, sender[12], place.into());
    Some((receiver, format.frame_length() - u32::from(place)))
}

/// In a run up to the end of a frame or longer, a receiver that differs in some bytes
/// alone is taken for one in step. The stop length counts for none.
fn overlooked<const FIRST: usize, const LAST: usize>(pair: &mut Pair, call: &Call) -> Answer {
    ran(pair, call, |pair, ticks| {
        settle(pair);
        let steps = UNITS.map(|unit| in_step(&pair.end(other(unit)).bytes()));
        for (unit, step) in UNITS.into_iter().zip(steps) {
            let leaps = step.filter(|(_, left)| *left <= ticks);
            change(pair, unit, |bytes| {
                let mut near = *bytes;
                let receiver = &mut near[32..42];
                if let Some((step, _)) = leaps {
                    receiver[FIRST..=LAST].copy_from_slice(&step[FIRST..=LAST]);
                    if receiver == &step[..10] && step[0] == 2 {
                        *bytes = near;
                    }
                }
            });
        }
        pair.run(ticks);
    })
}
