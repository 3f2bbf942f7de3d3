//! Two chips joined: the session that the document works out, and demand 3 on
//! random runs that meet its premises.

use std::collections::VecDeque;

use model::chip::{joined_ticks, set_up, Chip};
use model::{Format, Generator};

/// What a read would answer, with the chip left as it is.
fn peek(chip: &Chip, address: u8) -> u8 {
    chip.clone().read(address).1
}

#[test]
fn the_worked_session() {
    let (mut a, mut b) = (set_up(206, 126, 39), set_up(206, 126, 39));
    joined_ticks(&mut a, &mut b, 1);
    assert_eq!(a.write(0, 255), 0);
    joined_ticks(&mut a, &mut b, 152);
    assert_eq!(b.read(1), (0, 197));
    joined_ticks(&mut a, &mut b, 1);
    let answers = [1, 0, 1].map(|address| b.read(address));
    assert_eq!(answers, [(0, 195), (0, 255), (0, 193)]);
}

/// One way of the line: who sends in which format, when all that was written is
/// sent, what has still to come, and when the latest came.
struct Way {
    format: Format,
    over: u32,
    to_come: VecDeque<(u32, u8)>,
    latest: u32,
    came: u32,
}

impl Way {
    fn new(format: Format) -> Way {
        Way {
            format,
            over: 0,
            to_come: VecDeque::new(),
            latest: 0,
            came: 0,
        }
    }

    /// A character begins once it is written and the one before it is over; it
    /// comes 1+D after that, and at the latest L+D after its write.
    fn written(&mut self, now: u32, value: u8) {
        let (l, d) = (self.format.frame_length(), self.format.stop_sample());
        let begins = now.max(self.over);
        let idle = self.over <= now;
        self.over = begins + l;
        let comes = begins + 1 + d;
        assert!(comes <= now + l + d && (!idle || comes == now + 1 + d));
        let cut = (u32::from(value) % (1 << self.format.length)) as u8;
        self.to_come.push_back((comes, cut));
    }

    /// A tick took the chip that reads from one state to the other.
    fn ticked(&mut self, now: u32, before: &Chip, after: &Chip) {
        let status = peek(after, 1);
        let rises = peek(before, 1) & 2 == 0 && status & 2 != 0;
        let due = self.to_come.front().is_some_and(|&(at, _)| at == now);
        assert_eq!(rises, due, "at tick {now}");
        if due {
            let (_, value) = self.to_come.pop_front().unwrap();
            assert_eq!(peek(after, 0), value);
            self.latest = now;
            self.came += 1;
        }
        assert_eq!(status & (32 + 16 + 8), 0, "at tick {now}");
    }

    /// The next tick would be the L-th since a character came that is unread.
    fn must_read(&self, now: u32, chip: &Chip) -> bool {
        peek(chip, 1) & 2 != 0 && now + 1 >= self.latest + self.format.frame_length()
    }
}

/// The two modes of a side whose clocks both come to `factor` (01, 10 or 11), and the
/// format it sends in.
fn side(g: &mut Generator, factor: u8, length: u8, parity: bool, even: bool) -> ((u8, u8), Format) {
    // Factor 16 may also be had by internal clocks, whatever mode 1 says.
    let internal = factor == 2 && g.draw(2) == 0;
    let bits = if internal {
        1 + g.draw(3) as u8
    } else {
        factor
    };
    let even = if parity { even } else { g.draw(2) == 0 };
    let stop = 1 + g.draw(3) as u8;
    let mode1 = bits + 4 * length + 16 * u8::from(parity) + 32 * u8::from(even) + 64 * stop;
    let mode2 = g.draw(16) as u8 + 48 * u8::from(internal) + 64 * g.draw(4) as u8;
    let ticks = [1, 16, 64][usize::from(factor) - 1];
    let stops = [ticks, ticks + ticks / 2, 2 * ticks][usize::from(stop) - 1];
    let format = Format {
        factor: ticks,
        length: u32::from(length) + 5,
        parity,
        even,
        stop: stops,
    };
    ((mode1, mode2), format)
}

/// A call that demand 3 allows; a write of a character only when bit 0 says so.
fn call(g: &mut Generator, chip: &mut Chip, now: u32, way: &mut Way) {
    let value = g.draw(256) as u8;
    match g.draw(8) {
        0..=2 if peek(chip, 1) & 1 != 0 => {
            way.written(now, value);
            assert_eq!(chip.write(0, value), 0);
        }
        3 => {
            chip.read(value % 8);
        }
        4 => {
            chip.write(1, value);
        }
        5 => assert_eq!(chip.write(4 + value % 252, value), 1),
        6 => assert_eq!(chip.set_pins(0, 0, 0), 0),
        _ => {
            chip.outputs();
        }
    }
}

#[test]
fn demand_3_on_random_runs() {
    let mut came = 0;
    for seed in 1..=100 {
        let mut g = Generator { seed };
        g.draw(1);
        let (factor, length) = (1 + g.draw(3) as u8, g.draw(4) as u8);
        let (parity, even) = (g.draw(2) == 0, g.draw(2) == 0);
        let (modes_a, from_a) = side(&mut g, factor, length, parity, even);
        let (modes_b, from_b) = side(&mut g, factor, length, parity, even);
        let mut command = || 5 + 2 * g.draw(2) as u8 + 48 * g.draw(2) as u8;
        let mut a = set_up(modes_a.0, modes_a.1, command());
        let mut b = set_up(modes_b.0, modes_b.1, command());
        joined_ticks(&mut a, &mut b, 1);
        let (mut there, mut back) = (Way::new(from_a), Way::new(from_b));
        for now in 0..4000 {
            // Seldom between ticks, so that reads are often late and senders often idle.
            if g.draw(24) == 0 {
                call(&mut g, &mut a, now, &mut there);
                call(&mut g, &mut b, now, &mut back);
            }
            if there.must_read(now, &b) {
                b.read(0);
            }
            if back.must_read(now, &a) {
                a.read(0);
            }
            let before = (a.clone(), b.clone());
            joined_ticks(&mut a, &mut b, 1);
            there.ticked(now + 1, &before.1, &b);
            back.ticked(now + 1, &before.0, &a);
        }
        came += there.came + back.came;
    }
    assert!(came > 5_000, "only {came} characters came");
}
