//! Random runs of calls against the C driver, whose command stands behind `--`:
//! every line that it answers is the model's.

use model::driver::test;
use model::generate::calls::{run, RUNS};
use model::reach::Reach;
use std::process::ExitCode;

fn main() -> ExitCode {
    let mut reach = Reach::of_calls();
    match test("random_calls", (0..RUNS).map(run), |lines| reach.run(lines)) {
        Ok(()) => reach.conclude(),
        Err(status) => status,
    }
}
