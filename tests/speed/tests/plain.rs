//! The plain program does what the independent model does, so that its time is the time of the same work.

use model::chip::Chip as Slow;
use model::Generator;
use speed::chip::{joined_ticks, Chip};
use speed::input::*;
use speed::lent::Device;
use speed::session::MOST_LINES;

/// One chip both ways; each call is answered alike.
struct Twin {
    fast: Chip,
    slow: Slow,
}

impl Twin {
    fn just_reset() -> Twin {
        Twin {
            fast: Chip::just_reset(),
            slow: Slow::just_reset(),
        }
    }

    fn read(&mut self, address: u8) {
        let (refusal, value) = self.slow.read(address);
        let read = if refusal == 0 {
            Ok(value)
        } else {
            Err(refusal)
        };
        assert_eq!(self.fast.read(address), read, "read {address}");
        self.times_alike();
    }

    /// The stamps and tallies; the model's are taken from its bytes.
    fn times_alike(&self) {
        let slow = Device::of_bytes(self.slow.bytes());
        assert_eq!(self.fast.tallies(), slow.tallies());
        assert_eq!(self.fast.stamp(), slow.stamp());
        assert_eq!(self.fast.frame_start(), slow.frame_start());
    }

    fn write(&mut self, address: u8, value: u8) {
        let refusal = self.slow.write(address, value);
        assert_eq!(
            number(self.fast.write(address, value)),
            refusal,
            "write {address} {value}"
        );
        assert_eq!(self.fast.syn(), self.slow.syn());
    }

    fn set_pins(&mut self, dsr: u8, dcd: u8, cts: u8) {
        let refusal = self.slow.set_pins(dsr, dcd, cts);
        assert_eq!(number(self.fast.set_pins(dsr, dcd, cts)), refusal);
    }

    fn transmit(&mut self) -> bool {
        let level = self.fast.transmit();
        assert_eq!(u8::from(level), self.slow.transmit());
        level
    }

    fn receive(&mut self, level: bool) {
        self.fast.receive(level);
        assert_eq!(self.slow.receive(level.into()), 0);
    }

    /// Status is read at each tick of some runs only, as its read clears the change-mark.
    fn tick(a: &mut Twin, b: &mut Twin, looks: bool) {
        let (from_a, from_b) = (a.transmit(), b.transmit());
        a.receive(from_b);
        b.receive(from_a);
        if looks {
            a.read(1);
            b.read(1);
        }
    }
}

fn number(done: Result<(), u8>) -> u8 {
    done.err().unwrap_or(0)
}

/// A mode 1 that is mostly accepted.
fn mode1(g: &mut Generator) -> u8 {
    match g.draw(8) {
        0 => g.draw(256) as u8,
        _ => (64 * (1 + g.draw(3)) + 4 * g.draw(16) + 1 + g.draw(3)) as u8,
    }
}

/// A command that mostly leaves both directions on and sometimes breaks.
fn command(g: &mut Generator) -> u8 {
    match g.draw(8) {
        0 => g.draw(256) as u8,
        1 => 47,
        2 => 55,
        _ => 39,
    }
}

/// A level that is mostly low.
fn level(g: &mut Generator) -> u8 {
    [0, 0, 0, 0, 0, 0, 1, 2][g.draw(8) as usize]
}

fn call(g: &mut Generator, t: &mut Twin) {
    match g.draw(16) {
        0 => t.write(2, mode1(g)),
        1 => t.write(2, g.draw(256) as u8),
        2 | 3 => t.write(3, command(g)),
        4..=8 => t.write(0, g.draw(256) as u8),
        9 => t.write(g.draw(6) as u8, g.draw(256) as u8),
        10 => t.set_pins(level(g), level(g), level(g)),
        11 => t.set_pins(0, 0, 0),
        12 if g.draw(8) == 0 => *t = Twin::just_reset(),
        _ => t.read(g.draw(5) as u8),
    }
}

/// Set up anew with a mode of the run's own, so that every mode comes up.
fn set_up(t: &mut Twin, mode1: u8, mode2: u8) {
    t.read(3);
    t.write(2, mode1);
    t.write(2, mode2);
    t.write(3, 39);
    t.set_pins(0, 0, 0);
}

#[test]
fn the_fast_chip_is_the_models() {
    let mut g = Generator { seed: 2651 };
    let mut calls = 0;
    for run in 0..512u32 {
        let (mut a, mut b) = (Twin::just_reset(), Twin::just_reset());
        let mode = 64 + (run % 192) as u8;
        let clocks = 16 * g.draw(4) as u8;
        set_up(&mut a, mode, clocks);
        set_up(&mut b, mode, clocks);
        for _ in 0..40 {
            for _ in 0..g.draw(4) {
                call(&mut g, &mut a);
                call(&mut g, &mut b);
            }
            let (ticks, looks) = (g.draw(250), g.draw(2) == 0);
            calls += 4 * ticks;
            (0..ticks).for_each(|_| Twin::tick(&mut a, &mut b, looks));
            noise(&mut g, &mut a);
            a.times_alike();
            b.times_alike();
        }
    }
    assert!(calls > 5_000_000, "{calls} calls of ticks alone");
}

/// A line that no sender is at: pulses of any length.
fn noise(g: &mut Generator, t: &mut Twin) {
    let level = g.draw(2) == 1;
    for _ in 0..g.draw(40) {
        t.transmit();
        t.receive(level);
    }
}

#[test]
fn joined_ticks_are_the_models() {
    let (mut a, mut b) = (Twin::just_reset(), Twin::just_reset());
    set_up(&mut a, 126, 0);
    set_up(&mut b, 126, 0);
    for character in 0..=255 {
        a.write(0, character);
        b.write(0, !character);
        joined_ticks(&mut a.fast, &mut b.fast, 177);
        model::chip::joined_ticks(&mut a.slow, &mut b.slow, 177);
        (a.read(1), b.read(1), a.read(0), b.read(0));
    }
}

fn same_answer(input: String) -> String {
    let answer = speed::session::answer(input.as_bytes());
    assert_eq!(answer, model::session::answer(input.as_bytes()));
    String::from_utf8(answer).unwrap()
}

#[test]
fn the_plain_session_is_the_models() {
    for input in [
        "",
        "W\tA\t2\t0\nW\tB\t2\t1\nW\tA\t3\t64\nR\tA\t4\nP\tB\t0\t2\t0\nZ\tA\nR\tA\t1\nL\t7",
    ] {
        same_answer(input.to_string());
    }
    for (input, status, lines) in [
        (idle(1), 197, 12),
        (unset(1), 0, 3),
        (off(1), 196, 14),
        (broken(1), 231, 14),
    ] {
        let answer = format!("R\tA\t1\t{status}\nR\tB\t1\t{status}\nN\t{lines}\t0\n");
        assert_eq!(same_answer(input), answer);
    }
}

/// Document 01's session, with the stamp of P4.
#[test]
fn a_read_of_data_prints_its_stamp() {
    let lines = "W A 2 206;W A 2 126;W A 3 39;W B 2 206;W B 2 126;W B 3 39;P A 0 0 0;P B 0 0 0;\
        L 1;W A 0 255;L 152;R B 1;L 1;R B 1;R B 0;R B 1";
    let text = |lines: &str| lines.replace(' ', "\t").replace(';', "\n");
    let answer = "R B 1 197;R B 1 195;R B 0 255 154;R B 1 193;N 16 0;";
    assert_eq!(same_answer(text(lines)), text(answer));
    // Other ticks leave the stamp, and so does a read; a reset does not.
    let lines = lines.to_string() + ";L 9;R B 0;R A 0;Z B;R B 0";
    let answer = answer.replace("N 16 0", "R B 0 255 154;R A 0 0 0;R B 0 0 0;N 21 0");
    assert_eq!(same_answer(text(&lines)), text(&answer));
}

/// By which `run` takes the text's time off: behind a lead, stamps are as long without ticks as with them.
#[test]
fn a_lead_makes_stamps_long() {
    let full = full(&FULL_16, 300);
    let ticks = format!("L\t{}\n", FULL_16.ticks);
    let still = full.replace(&ticks, "L\t0\n").replace("L\t1\n", "L\t0\n");
    assert_eq!(still.matches("L\t0\n").count(), 302);
    let begun = 1 + 16 * 65_535 + 1;
    for (lines, last) in [
        (full, begun + 176 + 1 + 168 + 299 * 176),
        (still, begun + 168),
    ] {
        let answer = same_answer(lead() + &lines);
        let stamps: Vec<u32> = answer
            .lines()
            .filter(|line| line.starts_with("R\tA\t0\t") || line.starts_with("R\tB\t0\t"))
            .map(|line| line.rsplit('\t').next().unwrap().parse().unwrap())
            .collect();
        assert_eq!(stamps.len(), 602);
        assert!(stamps
            .iter()
            .all(|stamp| (1_000_000..10_000_000).contains(stamp)));
        assert_eq!(stamps[601], last);
    }
}

/// By which `run` compares whole sessions of mark: no character comes, and so no stamp moves.
#[test]
fn mark_changes_no_answer() {
    for input in [idle(1), unset(1)] {
        let input = input + "R\tA\t0\nR\tB\t0\n";
        let still = input.replace("L\t65535", "L\t0").replace("L\t1", "L\t0");
        assert_eq!(same_answer(still), same_answer(input));
    }
}

#[test]
fn whole_sessions_are_as_long_as_one_can_be() {
    for (input, runs) in [(whole_idle(), MOST_LINES - 11), (whole_unset(), MOST_LINES)] {
        assert_eq!(input.lines().count(), MOST_LINES);
        assert_eq!(input.matches("L\t65535\n").count(), runs);
    }
}

/// Each of 300 characters is read at the other end, with its stamp, and no error flag is set. The first one of A begins at
/// tick 2, that of B `behind` ticks later; each arrives `arrival` ticks (D) later.
fn nothing_is_lost(session: String, frames: &Frames, arrival: usize, behind: usize) {
    let answer = same_answer(session);
    let read_at = |unit: &str| -> Vec<&str> {
        let from = format!("R\t{unit}\t0\t");
        let values = answer.lines().filter_map(|line| line.strip_prefix(&*from));
        values.collect()
    };
    let sent = |begun: usize, value: fn(usize) -> usize| -> Vec<String> {
        let stamp = |k| begun + arrival + k * usize::from(frames.ticks);
        let values = (0..300).map(|k| format!("{}\t{}", value(k) % 256, stamp(k)));
        values.collect()
    };
    assert_eq!(read_at("A"), sent(2 + behind, |k| 13 * k + 85));
    assert_eq!(read_at("B"), sent(2, |k| 7 * k + 1));
    let mut lines = answer.lines().skip(600);
    assert_eq!(lines.next(), Some("R\tA\t1\t197"));
    assert_eq!(lines.next(), Some("R\tB\t1\t197"));
}

#[test]
fn a_full_line_is_the_models() {
    nothing_is_lost(full(&FULL_1, 300), &FULL_1, 10, 0);
    for (frames, arrival) in [(&FULL_16, 168), (&FULL_64, 672)] {
        let half = frames.ticks / 2;
        nothing_is_lost(full(frames, 300), frames, arrival, 0);
        nothing_is_lost(apart(frames, 300), frames, arrival, half.into());
    }
}
