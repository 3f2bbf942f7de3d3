//! The plain program: a session from standard input, its answer to standard output.

use std::io::{stdin, stdout, Read, Write};

fn main() {
    let mut input = Vec::new();
    stdin().read_to_end(&mut input).expect("the input");
    let output = speed::session::answer(&input);
    stdout().write_all(&output).expect("the output");
}
