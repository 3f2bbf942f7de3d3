//! The receiver that some levels make, by its bytes (docs/RANGES.md).

use crate::chip::{decode, set_up, RECEIVE};
use crate::generate::{accepted_mode, ACCEPTED_MODES};
use crate::{frame, Format};

/// The bytes of a receiver's state and of its format: 32 to 42 of a device.
pub type Receiver = [u8; 11];

/// The receiver of a chip with these modes that has its mark and then hears some levels.
pub fn heard(mode1: u8, mode2: u8, levels: &[bool]) -> Receiver {
    let mut chip = set_up(mode1, mode2, RECEIVE);
    chip.receive(1);
    for &level in levels {
        chip.receive(level.into());
    }
    let bytes = &chip.bytes()[32..43];
    bytes.try_into().expect("eleven bytes")
}

/// The receiver that has heard so many ticks of a frame in the frame's own format: in
/// step with it, where these are all that were sent.
pub fn in_step(format: &Format, character: u8, ticks: usize) -> Receiver {
    let mut modes = (0..ACCEPTED_MODES).map(accepted_mode);
    let mode1 = modes.find(|&mode1| decode(mode1, false) == *format);
    let levels = frame(format, character);
    let so_far = &levels[..ticks.min(levels.len())];
    heard(mode1.expect("a mode of each format"), 0, so_far)
}
