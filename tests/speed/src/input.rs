//! The inputs of the speed test: a line that is idle, one whose ends have no mode or are off, one in break, and one that is
//! full both ways.

use crate::session::MOST_LINES;

/// A mode 1, and the ticks that one of its frames lasts ("Sending").
pub struct Frames {
    pub mode1: u8,
    pub ticks: u16,
}

/// 8 bits, even parity, one stop bit: 11 bits a frame.
pub const FULL_1: Frames = Frames {
    mode1: 125,
    ticks: 11,
};
pub const FULL_16: Frames = Frames {
    mode1: 126,
    ticks: 11 * 16,
};
pub const FULL_64: Frames = Frames {
    mode1: 127,
    ticks: 11 * 64,
};

/// Both ends freshly set up, then `runs` of the most ticks that a record has.
pub fn idle(runs: usize) -> String {
    set_up(FULL_16.mode1) + &long_runs(runs) + STATUS
}

/// Both ends as after reset: no mode was ever set.
pub fn unset(runs: usize) -> String {
    long_runs(runs) + STATUS
}

/// Both ends freshly set up, then with transmit and receive off.
pub fn off(runs: usize) -> String {
    commanded(0, runs)
}

/// Both ends freshly set up, then in break.
pub fn broken(runs: usize) -> String {
    commanded(47, runs)
}

fn commanded(command: u8, runs: usize) -> String {
    let commands = format!("W\tA\t3\t{command}\nW\tB\t3\t{command}\n");
    set_up(FULL_16.mode1) + &commands + &long_runs(runs) + STATUS
}

/// As many lines as are taken, all of them ticks but for the set-up and the status.
pub fn whole_idle() -> String {
    idle(MOST_LINES - idle(0).lines().count())
}

/// As many lines as are taken, all of them ticks.
pub fn whole_unset() -> String {
    long_runs(MOST_LINES)
}

fn long_runs(runs: usize) -> String {
    "L\t65535\n".repeat(runs)
}

/// What comes before a line that is full, with its ticks or without: a character for each end, after so many ticks of mark
/// that its stamp has the seven digits of nearly every later one (P4). Without it the stamps of a session without ticks
/// would be 0, and the digits that they have more with ticks, which are the text's, would count with the ticks.
pub fn lead() -> String {
    let ticks = FULL_16.ticks;
    let character = write_both(0) + &format!("L\t{ticks}\n") + READ_BOTH;
    set_up(FULL_16.mode1) + &long_runs(16) + &character
}

/// Both ends send without a pause: a character is written while the one before it is sent, and each is read before the
/// next arrives. `characters` is for each way.
pub fn full(frames: &Frames, characters: usize) -> String {
    let mut text = set_up(frames.mode1) + &write_both(0) + "L\t1\n";
    for k in 1..=characters {
        text += &write_both(k);
        text += &format!("L\t{}\n{READ_BOTH}", frames.ticks);
    }
    text + STATUS
}

/// The same, but the frames of B lie half a frame behind those of A, so that no tick is a look of both.
pub fn apart(frames: &Frames, characters: usize) -> String {
    let half = frames.ticks / 2;
    let mut text = set_up(frames.mode1) + &write("A", 0);
    text += &format!("L\t{half}\n{}L\t1\n", write("B", 0));
    for k in 1..=characters {
        text += &format!("{}L\t{half}\nR\tB\t0\n", write("A", k));
        text += &format!("{}L\t{half}\nR\tA\t0\n", write("B", k));
    }
    text + STATUS
}

const READ_BOTH: &str = "R\tA\t0\nR\tB\t0\n";

/// The error flags are in the status: they show a character that was lost or taken wrongly.
const STATUS: &str = "R\tA\t1\nR\tB\t1\n";

/// "Freshly set up": both modes, a command with transmit and receive on, pins low, one joined tick.
fn set_up(mode1: u8) -> String {
    let mut text = String::new();
    for unit in ["A", "B"] {
        text += &format!(
            "W\t{unit}\t2\t{mode1}\nW\t{unit}\t2\t0\nW\t{unit}\t3\t39\nP\t{unit}\t0\t0\t0\n"
        );
    }
    text + "L\t1\n"
}

fn write_both(k: usize) -> String {
    write("A", k) + &write("B", k)
}

fn write(unit: &str, k: usize) -> String {
    let [a, b] = characters(k);
    let value = if unit == "A" { a } else { b };
    format!("W\t{unit}\t0\t{value}\n")
}

/// What A and B send: all byte values in turn, other ones for A than for B.
pub fn characters(k: usize) -> [u8; 2] {
    [7 * k + 1, 13 * k + 85].map(|value| value as u8)
}
