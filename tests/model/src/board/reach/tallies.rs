//! The tallies and stamps of channels that are shown behind a call (P4 of the change
//! requests).

use crate::board::Call;
use crate::calls::Lent;
use crate::counts::Counts;

const TRANSMIT_WRAPS: &str = "channel shown whose transmit tally wrapped";
const RECEIVE_WRAPS: &str = "channel shown whose receive tally wrapped";
const STAMPED: &str = "channel shown whose character was stamped";
const STARTED: &str = "channel shown whose frame's start was stamped";
const READ: &str = "stamped channel shown behind a read of port 0";
const UNHEARD: &str = "channel shown behind a receive tick that is not heard";
const SENDS_NOTHING: &str = "channel shown behind a transmit tick that begins no frame";
const RESET: &str = "channel with tallies and stamps shown behind a reset";
const REFUSED: [(&str, u8); 6] = [
    ("transmit", 10),
    ("transmit", 8),
    ("receive", 10),
    ("receive", 8),
    ("receive", 2),
    ("reset", 10),
];

fn refused(call: &str, refusal: u8) -> String {
    format!("channel with a tally at 4294967295 shown behind {call} refused with {refusal}")
}

pub fn name(counts: &mut Counts) {
    counts.name([TRANSMIT_WRAPS, RECEIVE_WRAPS, STAMPED, STARTED]);
    counts.name([READ, UNHEARD, SENDS_NOTHING, RESET]);
    counts.name(REFUSED.map(|(call, refusal)| refused(call, refusal)));
}

/// A channel before a call, and as it is shown.
pub fn shown(counts: &mut Counts, call: &Call, refusal: u8, [before, after]: [&Lent; 2]) {
    let (was, is) = (before.view(), after.view());
    if refusal != 0 {
        let about_to_wrap = [was.transmit_tally, was.receive_tally].contains(&u32::MAX);
        if REFUSED.contains(&(call.name(), refusal)) {
            counts.count_if(about_to_wrap, &refused(call.name(), refusal));
        }
        return;
    }
    let transmitted = was.transmit_tally != is.transmit_tally;
    let received = was.receive_tally != is.receive_tally;
    match call {
        Call::Transmit(_) if transmitted => {
            counts.count_if(is.transmit_tally == 0, TRANSMIT_WRAPS);
            counts.count(if was.starts_now() {
                STARTED
            } else {
                SENDS_NOTHING
            });
        }
        Call::Receive(..) if received => {
            counts.count_if(is.receive_tally == 0, RECEIVE_WRAPS);
            counts.count_if(is.stamp == is.receive_tally, STAMPED);
            counts.count_if(!was.listening, UNHEARD);
        }
        Call::In(0) => counts.count_if(is.stamp != 0 && before != after, READ),
        Call::Reset => {
            let all = [was.transmit_tally, was.start, was.receive_tally, was.stamp];
            counts.count_if(all.iter().all(|&number| number != 0), RESET);
        }
        _ => {}
    }
}
