//! The session program of document 01 as the model has it: all of standard input
//! in, its answer out.

use std::io::{self, Read, Write};

fn main() -> io::Result<()> {
    let mut input = Vec::new();
    io::stdin().read_to_end(&mut input)?;
    io::stdout().write_all(&model::session::answer(&input))
}
