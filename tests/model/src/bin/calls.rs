//! Prints what the chip answers to pseudo-random runs of calls, and the stamps, the tallies
//! and the status byte that each leaves, as text with tabs: what the program `run_calls` has
//! to write.

use model::chip::Chip;
use model::Generator;

/// A pseudo-random run of calls. Each call is counted, and what it answers goes
/// into one sum that depends on every answer and on their order.
struct Session {
    generator: Generator,
    chip: Chip,
    calls: u32,
    refused: u32,
    sum: u32,
}

impl Session {
    fn draw(&mut self, n: u32) -> u32 {
        self.generator.draw(n)
    }

    /// A number below `n`, which is at most 256.
    fn draw_byte(&mut self, n: u32) -> u8 {
        self.draw(n) as u8
    }

    fn mix(&mut self, number: impl Into<u32>) {
        self.sum = self.sum.wrapping_mul(31).wrapping_add(number.into());
    }

    fn mix_refusal(&mut self, refusal: u8) {
        self.refused += u32::from(refusal != 0);
        self.mix(refusal);
    }

    // The seven calls.

    fn reset(&mut self) {
        self.calls += 1;
        self.chip.reset();
    }

    fn read(&mut self, address: u8) {
        self.calls += 1;
        let (refusal, value) = self.chip.read(address);
        self.mix_refusal(refusal);
        self.mix(value);
        // With a character goes its stamp (P4), and the start of the last frame sent.
        if address == 0 {
            self.mix(self.chip.stamp());
            self.mix(self.chip.start());
        }
    }

    fn write(&mut self, address: u8, value: u8) {
        self.calls += 1;
        let refusal = self.chip.write(address, value);
        self.mix_refusal(refusal);
    }

    fn set_pins(&mut self, dsr: u8, dcd: u8, cts: u8) {
        self.calls += 1;
        let refusal = self.chip.set_pins(dsr, dcd, cts);
        self.mix_refusal(refusal);
    }

    fn transmit(&mut self) -> u8 {
        self.calls += 1;
        let level = self.chip.transmit();
        self.mix(level);
        level
    }

    fn receive(&mut self, level: u8) {
        self.calls += 1;
        let refusal = self.chip.receive(level);
        self.mix_refusal(refusal);
    }

    fn outputs(&mut self) {
        self.calls += 1;
        for level in self.chip.outputs() {
            self.mix(level);
        }
        // With them goes the status byte that the device keeps (P7).
        self.mix(self.chip.peek());
    }

    /// One step: a few calls, most often ticks with the line looped back.
    fn step(&mut self) {
        match self.draw(64) {
            0 => {
                if self.draw(4) == 0 {
                    self.reset();
                }
            }
            1..=3 => {
                let address = self.draw_byte(5);
                self.read(address);
            }
            4..=5 => {
                let value = self.draw_byte(256);
                self.write(0, value);
            }
            6 => {
                let address = self.draw_byte(5);
                let value = self.draw_byte(256);
                self.write(address, value);
            }
            7 => {
                let value = self.draw_byte(256);
                self.write(2, value);
            }
            8 => {
                let mut value = 39;
                if self.draw(4) == 0 {
                    value = self.draw_byte(256);
                }
                self.write(3, value);
            }
            9 => {
                let mut pins = [0; 3];
                if self.draw(4) == 0 {
                    pins = [(); 3].map(|()| self.draw_byte(3));
                }
                self.set_pins(pins[0], pins[1], pins[2]);
            }
            10 => {
                // Both modes from the first on, mode 1 one that is accepted.
                self.read(3);
                let stop = self.draw_byte(3);
                let middle = self.draw_byte(16);
                let factor = self.draw_byte(3);
                self.write(2, 64 * (1 + stop) + 4 * middle + 1 + factor);
                let mode2 = self.draw_byte(256);
                self.write(2, mode2);
            }
            11 => {
                for _ in 0..=self.draw(200) {
                    self.transmit();
                }
            }
            12 => {
                let last = self.draw(200);
                let level = self.draw_byte(2);
                for _ in 0..=last {
                    self.receive(level);
                }
            }
            13 => {
                let level = self.draw_byte(4);
                self.receive(level);
            }
            14 => {
                // A break, a character that waits behind it, and its end.
                self.write(3, 47);
                self.burst(40);
                let value = self.draw_byte(256);
                self.write(0, value);
                self.write(3, 39);
                self.burst(40);
            }
            15 => {
                // Receive off, DCD high or CTS high for a few ticks.
                match self.draw(3) {
                    0 => self.write(3, 35),
                    1 => self.set_pins(0, 1, 0),
                    _ => self.set_pins(0, 0, 1),
                }
                self.burst(3);
                self.write(3, 39);
                self.set_pins(0, 0, 0);
            }
            16 => self.burst(900),
            _ => self.burst(40),
        }
    }

    /// At most `most` ticks of the line led back, at least one.
    fn burst(&mut self, most: u32) {
        for _ in 0..=self.draw(most) {
            let level = self.transmit();
            self.receive(level);
        }
    }
}

fn print_session(number: u32) {
    let mut session = Session {
        generator: Generator { seed: number + 1 },
        chip: Chip::just_reset(),
        calls: 0,
        refused: 0,
        sum: 0,
    };
    for _ in 0..500 {
        session.step();
        session.outputs();
    }
    session.read(1);
    session.read(0);
    println!(
        "Q\t{number}\t{}\t{}\t{}",
        session.calls, session.refused, session.sum
    );
    let chip = &session.chip;
    println!(
        "T\t{}\t{}\t{}\t{}\t{}",
        chip.stamp(),
        chip.start(),
        chip.transmit_tally(),
        chip.receive_tally(),
        chip.peek()
    );
}

fn main() {
    for number in 0..64 {
        print_session(number);
    }
}
