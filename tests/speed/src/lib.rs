//! The plain side of the speed tests: two joined chips and the session text as one writes them in Rust for speed, ticked
//! one tick at a time, and the inputs; and the board and the pair over devices that a host lends. Document 01 has the
//! rules, with P1, P2, P4, P9 and P12 of the change requests; the sections named are document 01's.

pub mod board;
pub mod chip;
pub mod input;
pub mod lent;
pub mod pair;
pub mod session;
pub mod turns;
