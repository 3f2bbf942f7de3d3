//! The times of the three calls on a lent pair beside plain Rust chips, ticked one tick at a time, as native code in one
//! program, into which `pair/run` links the proved code. The sides take turns in small batches, and the best batch counts;
//! a checksum of all that is read holds them together. The plain chips are those of the plain program (`chip.rs`), which
//! check no range. First a long pseudo-random run holds the calls to a plain pair by all its fields (`alike.rs`).

mod alike;
mod proved;

use proved::Proved;
use speed::chip::{joined_tick, joined_ticks, joined_wait, Chip};
use speed::input::{characters, Frames, FULL_1, FULL_16, FULL_64};
use speed::pair::Unit::{self, A, B};
use speed::turns::by_turns;
use std::hint::black_box;
use std::process::ExitCode;

/// The two chips of a side.
trait Side {
    fn just_reset() -> Self;
    fn read(&mut self, unit: Unit, address: u8) -> u8;
    fn write(&mut self, unit: Unit, address: u8, value: u8);
    fn lower_pins(&mut self, unit: Unit);
    /// 2 times b's level, plus a's.
    fn tick(&mut self) -> u16;
    fn run(&mut self, n: u16);
    /// The ticks that it took.
    fn wait(&mut self, unit: Unit, limit: u16) -> u16;
    /// When the held character came, and when the last frame began.
    fn stamps(&mut self, unit: Unit) -> [u32; 2];
}

struct Plain {
    a: Chip,
    b: Chip,
}

impl Plain {
    fn chip(&mut self, unit: Unit) -> &mut Chip {
        match unit {
            A => &mut self.a,
            B => &mut self.b,
        }
    }
}

impl Side for Plain {
    fn just_reset() -> Plain {
        Plain {
            a: Chip::just_reset(),
            b: Chip::just_reset(),
        }
    }

    fn read(&mut self, unit: Unit, address: u8) -> u8 {
        self.chip(unit).read(address).unwrap_or(0)
    }

    fn write(&mut self, unit: Unit, address: u8, value: u8) {
        _ = self.chip(unit).write(address, value);
    }

    fn lower_pins(&mut self, unit: Unit) {
        _ = self.chip(unit).set_pins(0, 0, 0);
    }

    fn tick(&mut self) -> u16 {
        let [a, b] = joined_tick(&mut self.a, &mut self.b);
        2 * u16::from(b) + u16::from(a)
    }

    fn run(&mut self, n: u16) {
        joined_ticks(&mut self.a, &mut self.b, n);
    }

    fn wait(&mut self, unit: Unit, limit: u16) -> u16 {
        match unit {
            A => joined_wait(&mut self.b, &mut self.a, limit),
            B => joined_wait(&mut self.a, &mut self.b, limit),
        }
    }

    fn stamps(&mut self, unit: Unit) -> [u32; 2] {
        let chip = self.chip(unit);
        [chip.stamp(), chip.frame_start()]
    }
}

// == what both sides do ==

/// The most ticks of a run.
const LONG: u16 = 65_535;

enum Traffic {
    /// Runs of the most ticks, with nothing written.
    Long,
    /// Waits for as many, in which nothing comes.
    Vain,
    /// Waits for a character that is there.
    There,
    /// A run for each frame, with its two writes before it and its two reads behind it.
    Full(&'static Frames),
    /// The same with a wait for A's character in place of the run: full where that comes before its frame's last tick.
    Waits(&'static Frames),
    /// The same, but B's frames lie half a frame behind A's: two runs for each frame.
    Apart(&'static Frames),
    /// Single ticks, with nothing written.
    Single,
    /// Single ticks of a full line.
    FullSingle(&'static Frames),
}
use Traffic::{Apart, Full, FullSingle, Long, Single, There, Vain, Waits};

/// A line of two chips with this mode 1, or none, and these commands.
struct Row {
    title: &'static str,
    mode1: Option<u8>,
    commands: [u8; 2],
    traffic: Traffic,
}

const ON: u8 = 39;
const BREAK: u8 = 47;
const OFF: u8 = 0;
/// Status behind a batch of a full line: nothing unread, no sender that ran empty, no error flag.
const NOT_FULL: u8 = 0b0011_1110;
const MODE: Option<u8> = Some(FULL_16.mode1);

const ROWS: [Row; 17] = [
    still("run of 65535, idle", MODE, [ON; 2], Long),
    still("run of 65535, break", MODE, [BREAK; 2], Long),
    still("run of 65535, break of one end", MODE, [BREAK, ON], Long),
    still("run of 65535, off", MODE, [OFF; 2], Long),
    still("run of 65535, mode unset", None, [ON; 2], Long),
    still("wait of 65535, idle", MODE, [ON; 2], Vain),
    still("wait of 65535, break of one end", MODE, [BREAK, ON], Vain),
    still("wait, a character there", MODE, [ON; 2], There),
    full("full, 64 ticks a bit", &FULL_64, Full(&FULL_64)),
    full("full, 16 ticks a bit", &FULL_16, Full(&FULL_16)),
    full("full, 1 tick a bit", &FULL_1, Full(&FULL_1)),
    full("full, 16, half a frame apart", &FULL_16, Apart(&FULL_16)),
    full("full, 64, by waits", &FULL_64, Waits(&FULL_64)),
    full("full, 16, by waits", &FULL_16, Waits(&FULL_16)),
    still("single tick, idle", MODE, [ON; 2], Single),
    full("single tick, full, 16", &FULL_16, FullSingle(&FULL_16)),
    full("single tick, full, 1", &FULL_1, FullSingle(&FULL_1)),
];

const fn still(title: &'static str, mode1: Option<u8>, commands: [u8; 2], traffic: Traffic) -> Row {
    Row {
        title,
        mode1,
        commands,
        traffic,
    }
}

const fn full(title: &'static str, frames: &Frames, traffic: Traffic) -> Row {
    still(title, Some(frames.mode1), [ON; 2], traffic)
}

fn write_both(side: &mut impl Side, k: usize) {
    let [a, b] = characters(k);
    side.write(A, 0, a);
    side.write(B, 0, b);
}

fn summed(sum: u32, answer: impl Into<u32>) -> u32 {
    sum.rotate_left(1) ^ answer.into()
}

fn read_both(side: &mut impl Side, address: u8, sum: u32) -> u32 {
    let sum = summed(sum, side.read(A, address));
    summed(sum, side.read(B, address))
}

impl Row {
    /// Freshly set up, then with the commands. The first frames of a full line are under way, one that is not full has come
    /// to rest.
    fn begin<S: Side>(&self) -> S {
        let mut side = S::just_reset();
        for unit in [A, B] {
            for mode in self.mode1.into_iter().flat_map(|mode1| [mode1, 0]) {
                side.write(unit, 2, mode);
            }
            side.write(unit, 3, ON);
            side.lower_pins(unit);
        }
        side.run(1);
        side.write(A, 3, self.commands[0]);
        side.write(B, 3, self.commands[1]);
        match self.traffic {
            Long | Vain | Single => side.run(LONG),
            There => {
                write_both(&mut side, 0);
                side.run(LONG);
            }
            Full(_) | FullSingle(_) => write_both(&mut side, 0),
            Waits(_) => {}
            Apart(frames) => {
                side.write(A, 0, characters(0)[0]);
                side.run(frames.ticks / 2);
                side.write(B, 0, characters(0)[1]);
            }
        }
        side.run(1);
        side
    }

    /// The traffic, so many times; the checksum of all that is read, with all stamps and both status bytes. (The tallies are
    /// other ones where a side has more of the traffic.)
    fn batch<S: Side>(&self, side: &mut S, times: usize) -> u32 {
        let mut sum = 0;
        match self.traffic {
            Long => (0..times).for_each(|_| side.run(LONG)),
            Vain => (0..times).for_each(|_| assert_eq!(side.wait(A, LONG), LONG)),
            There => (0..times).for_each(|_| assert_eq!(side.wait(B, LONG), 0)),
            Single => (0..times).for_each(|_| sum = summed(sum, side.tick())),
            Waits(_) => {
                for k in 1..=times {
                    write_both(side, k);
                    sum = summed(sum, side.wait(B, LONG));
                    sum = read_both(side, 0, sum);
                }
            }
            Full(frames) => {
                for k in 1..=times {
                    write_both(side, k);
                    side.run(frames.ticks);
                    sum = read_both(side, 0, sum);
                }
            }
            FullSingle(frames) => {
                for k in 1..=times {
                    write_both(side, k);
                    (0..frames.ticks).for_each(|_| sum = summed(sum, side.tick()));
                    sum = read_both(side, 0, sum);
                }
            }
            Apart(frames) => {
                for k in 1..=times {
                    for (from, to) in [(A, B), (B, A)] {
                        side.write(from, 0, characters(k)[from as usize]);
                        side.run(frames.ticks / 2);
                        sum = summed(sum, side.read(to, 0));
                    }
                }
            }
        }
        let stamps = [A, B].into_iter().flat_map(|unit| side.stamps(unit));
        sum = stamps.fold(sum, |sum, stamp| summed(sum, stamp));
        read_both(side, 1, sum)
    }

    /// How often each side has the traffic between two looks at the clock: long enough for the clock, short enough to be
    /// left alone by what else the machine does.
    fn times(&self) -> [usize; 2] {
        match self.traffic {
            Long | Vain => [256, 1],
            Single | There => [4096, 4096],
            _ => [64, 64],
        }
    }

    /// The calls that the traffic takes, and the ticks; a wait that takes none counts as one.
    fn size(&self) -> [u16; 2] {
        match self.traffic {
            Long | Vain => [1, LONG],
            Single | There => [1, 1],
            Full(frames) | Waits(frames) => [1, frames.ticks],
            Apart(frames) => [2, frames.ticks],
            FullSingle(frames) => [frames.ticks; 2],
        }
    }

    fn is_full(&self) -> bool {
        matches!(self.traffic, Full(_) | Waits(_) | Apart(_) | FullSingle(_))
    }

    fn measure(&self) -> Result<(), String> {
        let (mut proved, mut plain): (Proved, Plain) = (self.begin(), self.begin());
        let times = self.times();
        let (best, alike) = by_turns(
            || self.batch(black_box(&mut proved), black_box(times[0])),
            || self.batch(black_box(&mut plain), black_box(times[1])),
        );
        if !alike {
            return Err(format!("the answers of '{}' differ", self.title));
        }
        if self.is_full() && (proved.read(A, 1) | proved.read(B, 1)) & NOT_FULL != 0 {
            return Err(format!("the line of '{}' was not full", self.title));
        }
        let [calls, ticks] = self.size().map(f64::from);
        let once = best[0] / times[0] as f64;
        let (tick, plain_tick) = (once / ticks, best[1] / times[1] as f64 / ticks);
        let (title, ratio) = (self.title, plain_tick / tick);
        println!(
            "{title:<32} {:10.2} {tick:12.6} {plain_tick:9.2} {ratio:12.2}",
            once / calls
        );
        Ok(())
    }
}

fn compare() -> Result<(), String> {
    alike::answer_alike()?;
    println!(
        "{:<32} {:>10} {:>12} {:>9} {:>12}",
        "nanoseconds", "a call", "a tick", "plain", "ratio"
    );
    ROWS.iter().try_for_each(Row::measure)
}

fn main() -> ExitCode {
    let Err(difference) = compare() else {
        return ExitCode::SUCCESS;
    };
    println!("pair: {difference}");
    ExitCode::FAILURE
}
