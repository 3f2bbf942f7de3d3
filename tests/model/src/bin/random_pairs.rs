//! Random runs of calls against the pair's C driver, whose command stands behind
//! `--`: every line that it answers is the model's.

use model::driver::test;
use model::generate::pairs::{run, RUNS, WAIT_RUNS};
use model::pair::reach::Reach;
use std::process::ExitCode;

fn main() -> ExitCode {
    let mut reach = Reach::of_pairs();
    let runs = (0..RUNS + WAIT_RUNS).map(run);
    match test("random_pairs", runs, |lines| reach.run(lines)) {
        Ok(()) => reach.conclude(),
        Err(status) => status,
    }
}
