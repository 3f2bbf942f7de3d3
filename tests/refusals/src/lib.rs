//! Must-fail edits say in lines of fixed form which wrong programs they hold and where each is refused; the log of a check says where it
//! was. This crate checks each edited crate, holds the one to the other, and writes the table of `docs/PROMISES.md` from those lines.
pub mod check;
pub mod edit;
pub mod log;
pub mod project;
