//! The limits of waits for a character (P12 of the change requests).

use super::any_mode;
use crate::chip::decode;
use crate::draw::Draws;
use crate::wait::WAIT_LIMIT;
use crate::Format;

/// The highest number of five digits.
const FIVE_DIGITS: u32 = 99_999;

/// A limit that is refused: with 21, or for its six digits.
pub fn too_high(draws: &mut Draws) -> u32 {
    match draws.below(6) {
        0 | 1 => WAIT_LIMIT + 1,
        2 => FIVE_DIGITS,
        3 => draws.between(FIVE_DIGITS + 1, 10 * FIVE_DIGITS),
        _ => draws.between(WAIT_LIMIT + 1, FIVE_DIGITS),
    }
}

/// About as many ticks as a character takes to come in a format: D, 1+D, L or L+D, one
/// less or one more.
pub fn about(draws: &mut Draws, format: &Format) -> u32 {
    let (length, stop) = (format.frame_length(), format.stop_sample());
    let ticks = draws.of(&[stop, 1 + stop, length, length + stop, length + stop]);
    ticks + draws.below(3) - 1
}

/// A limit of any kind for a character in a format. One that is long is dear where
/// nothing comes, so few are.
pub fn limit(draws: &mut Draws, format: &Format) -> u32 {
    match draws.below(32) {
        0..=2 => 0,
        3..=6 => draws.between(1, 8),
        7..=12 => draws.between(1, format.frame_length()),
        13..=22 => about(draws, format),
        23..=25 => 2 * about(draws, format),
        26 if draws.one_in(2) => draws.between(1000, 2000),
        27 if draws.one_in(12) => WAIT_LIMIT - draws.of(&[0, 0, 0, 30_000]),
        _ => too_high(draws),
    }
}

/// The same for any format.
pub fn any(draws: &mut Draws) -> u32 {
    let mode1 = any_mode(draws);
    let format = decode(mode1, draws.one_in(2));
    limit(draws, &format)
}
