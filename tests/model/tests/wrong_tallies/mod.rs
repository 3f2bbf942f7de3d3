//! Wrong tallies and stamps (P4 of the change requests), by their faults.

mod faults;

use crate::faults::Fault;
use model::board::lines::Make as MakeOnBoard;
use model::pair::lines::Make as MakeOnPair;

pub use faults::ALL;

/// A wrong program, and where it can be seen beside the calls of one device. In a
/// session both tallies of a chip are alike, only stamps are written, and none wraps; a
/// pair and a board have no call that looks at a tally, but their devices are shown.
pub struct Wrong {
    pub name: &'static str,
    pub fault: Fault,
    pub in_sessions: bool,
    pub on_pair: Option<MakeOnPair>,
    pub on_board: Option<MakeOnBoard>,
}
