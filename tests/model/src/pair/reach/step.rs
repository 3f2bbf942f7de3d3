//! Where a receiver stands to the frame that is sent to it, by the bytes of both: in
//! step is just where the places of the frame so far put it.

use crate::calls::DEVICE_BYTES;
use crate::pair::hearing::{in_step, Receiver};
use crate::ranges::format;
use crate::Format;

const IN_STEP: &str = "in step";
const BEHIND_THE_STOP: &str = "in step, behind the stop sample";
const WAITING: &str = "waiting";
const SEARCHING: &str = "searching before the stop sample";
const SLIPPED: [&str; 4] = [
    "a tick behind",
    "a tick ahead",
    "a bit behind",
    "a bit ahead",
];

/// The fields of a receiver by their bytes, in which it may be out of step; the last
/// does not count where another differs, since one stop sample is heard anyhow.
const FIELDS: [(&str, usize); 9] = [
    ("in step but for its countdown", 1),
    ("in step but for one bit of its value", 2),
    ("in step but for its wrong parity", 3),
    ("in step but for its look", 4),
    ("in step but for the factor of its format", 6),
    ("in step but for the length of its format", 7),
    ("in step but for the parity of its format", 8),
    ("in step but for the kind of its parity", 9),
    ("in step but for the stop of its format", STOP),
];
const STOP: usize = 10;

pub fn names() -> impl Iterator<Item = &'static str> {
    let others = [IN_STEP, BEHIND_THE_STOP, WAITING, SEARCHING];
    let fields = FIELDS.into_iter().map(|(name, _)| name);
    others.into_iter().chain(SLIPPED).chain(fields)
}

/// A frame under way.
struct Sent {
    format: Format,
    character: u8,
    place: usize,
}

impl Sent {
    fn of(sender: &[u8; DEVICE_BYTES]) -> Option<Sent> {
        let place = usize::from(u16::from_le_bytes([sender[18], sender[19]]));
        Some(Sent {
            format: format(&sender[13..18])?,
            character: sender[12],
            place,
        })
    }

    fn hearer(&self, ticks: usize) -> Receiver {
        in_step(&self.format, self.character, ticks)
    }
}

/// How the receiver of one device stands to the frame of the other, if there is one.
pub fn standing(
    sender: &[u8; DEVICE_BYTES],
    receiver: &[u8; DEVICE_BYTES],
) -> Option<&'static str> {
    let sent = Sent::of(sender)?;
    let receiver: Receiver = receiver[32..43].try_into().expect("eleven bytes");
    let right = sent.hearer(sent.place);
    let differ = |place: &usize| receiver[*place] != right[*place];
    let mut others: Vec<usize> = (0..receiver.len()).filter(differ).collect();
    if others.len() > 1 {
        others.retain(|&place| place != STOP);
    }
    match others[..] {
        [] if right[0] == 1 => Some(BEHIND_THE_STOP),
        [] => Some(IN_STEP),
        [2] if (receiver[2] ^ right[2]).count_ones() > 1 => None,
        [place] if receiver[0] == 2 => {
            let mut names = FIELDS.iter().filter(|(_, byte)| *byte == place);
            names.next().map(|(name, _)| *name)
        }
        _ if receiver[0] == 0 => Some(WAITING),
        _ if receiver[0] == 1 => Some(SEARCHING),
        _ => slipped(&sent, &receiver),
    }
}

/// A receiver that is where a neighbouring place of the frame would put it.
fn slipped(sent: &Sent, receiver: &Receiver) -> Option<&'static str> {
    let factor = sent.format.factor as usize;
    let is = |ticks: Option<usize>| {
        let mut other = sent.hearer(ticks?);
        other[STOP] = receiver[STOP];
        (other == *receiver).then_some(())
    };
    let places = [
        sent.place.checked_sub(1),
        Some(sent.place + 1),
        sent.place.checked_sub(factor),
        Some(sent.place + factor),
    ];
    let at = places.into_iter().position(|ticks| is(ticks).is_some());
    at.map(|at| SLIPPED[at])
}
