//! Prints an input of the speed test: `input NAME`.

use speed::input::*;

fn main() {
    let name = std::env::args().nth(1).expect("the name of an input");
    let text = match name.as_str() {
        "idle" => idle(500),
        "unset" => unset(500),
        "off" => off(500),
        "break" => broken(500),
        "whole_idle" => whole_idle(),
        "whole_unset" => whole_unset(),
        "lead" => lead(),
        "full1" => full(&FULL_1, 13_000),
        "full16" => full(&FULL_16, 13_000),
        "full64" => full(&FULL_64, 13_000),
        "apart16" => apart(&FULL_16, 10_000),
        "apart64" => apart(&FULL_64, 10_000),
        _ => panic!("no input is called {name}"),
    };
    print!("{text}");
}
