//! Random runs of calls against the board's C driver, whose command stands behind
//! `--`: every line that it answers is the model's.

use model::board::reach::Reach;
use model::driver::test;
use model::generate::boards::{run, RUNS};
use std::process::ExitCode;

fn main() -> ExitCode {
    let mut reach = Reach::of_boards();
    match test("random_boards", (0..RUNS).map(run), |lines| {
        reach.run(lines)
    }) {
        Ok(()) => reach.conclude(),
        Err(status) => status,
    }
}
