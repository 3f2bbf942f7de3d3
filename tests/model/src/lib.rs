//! A plain model of an asynchronous serial line: the levels a character is
//! sent as, and the characters that a list of samples holds.
//!
//! It covers the sections "Sending, by transmit ticks" and "Receiving, by
//! receive ticks" of document 01, for a receiver that is on throughout
//! and keeps one mode. The module `chip` has the whole chip, `session` the
//! session program, `calls` the text of the C driver and `ranges` the ranges of
//! the device that it lends. The module `board` has eight chips on one board and the
//! text of its driver, `pair` two lent devices on a line and the text of theirs, `wait`
//! the wait for a character that sessions and pairs have. The other modules are the
//! random tests from outside: `generate` draws sessions, runs of calls and devices,
//! `program` runs the proved program, `driver` compares a C driver's answers with the
//! model's, `delivery` holds an answer to demand 3 without the chip, `reach` and
//! `counts` count what was reached and `shorten` cuts a difference down.

pub mod board;
pub mod calls;
pub mod chip;
pub mod counts;
pub mod delivery;
pub mod draw;
pub mod driver;
pub mod generate;
pub mod pair;
pub mod program;
pub mod ranges;
pub mod reach;
pub mod session;
pub mod shorten;
pub mod wait;

/// How characters are put on the line. `stop` is in ticks, not in bits, so
/// that one and a half needs no fraction (with a factor of 1 it counts as 1).
#[derive(Clone, Copy, Debug, PartialEq, Eq)]
pub struct Format {
    pub factor: u32,
    pub length: u32,
    pub parity: bool,
    pub even: bool,
    pub stop: u32,
}

/// A character that arrived. `at` is the number of samples up to and including
/// its stop sample, counted from 1; the flags are those of this character alone.
#[derive(Clone, Copy, Debug, PartialEq, Eq)]
pub struct Character {
    pub at: u32,
    pub value: u8,
    pub parity: bool,
    pub framing: bool,
}

impl Format {
    /// h of "Receiving": half a bit, rounded down, hence 0 for a factor of 1.
    pub fn half(&self) -> u32 {
        self.factor / 2
    }

    /// L of "Sending": F(1+n+p)+S.
    pub fn frame_length(&self) -> u32 {
        self.factor * (1 + self.length + u32::from(self.parity)) + self.stop
    }

    /// D of "Receiving": h+F(n+p+1). There is one stop sample whatever the
    /// number of stop ticks, so `stop` has no part in it.
    pub fn stop_sample(&self) -> u32 {
        self.half() + self.factor * (self.length + u32::from(self.parity) + 1)
    }

    /// The parity level that belongs to `data`: even parity makes the number of
    /// ones even with the parity bit counted in, odd parity makes it odd.
    fn parity_level(&self, data: &[bool]) -> bool {
        let ones = data.iter().filter(|&&level| level).count();
        (ones % 2 == 1) == self.even
    }
}

/// The levels of the whole frame of `character`, one for each tick ("Sending").
pub fn frame(format: &Format, character: u8) -> Vec<bool> {
    // Only `length` bits are taken: the higher ones are dropped, and so they
    // have no say in the parity either.
    let data: Vec<bool> = (0..format.length)
        .map(|i| (character >> i) & 1 == 1)
        .collect();

    let mut bits = vec![false];
    bits.extend(&data);
    if format.parity {
        bits.push(format.parity_level(&data));
    }

    let mut levels = Vec::new();
    for bit in bits {
        levels.extend(vec![bit; format.factor as usize]);
    }
    // The stop is kept out of `bits` because it need not last a whole number
    // of bits.
    levels.extend(vec![true; format.stop as usize]);
    levels
}

/// The characters that `samples` holds, for a receiver that starts by waiting
/// for a 1 ("Receiving").
pub fn read(format: &Format, samples: &[bool]) -> Vec<Character> {
    let mut arrived = Vec::new();
    let mut from = 0;
    while let Some(zero) = find_start(samples, from) {
        let look = zero + format.half() as usize;
        let stop = zero + format.stop_sample() as usize;
        if samples.get(look) == Some(&true) {
            // A false start; its 1 serves as the mark, so the search takes it in.
            from = look;
        } else if stop < samples.len() {
            arrived.push(character_at(format, samples, zero));
            // A good stop is itself a 1, so searching from it is searching at
            // once. From a stop of 0 the search has to find a 1 first, which is
            // the wait that follows a framing error.
            from = stop;
        } else {
            // The samples end before the stop sample.
            break;
        }
    }
    arrived
}

/// The index of the first 0 after the first 1, both at or after `from`.
fn find_start(samples: &[bool], from: usize) -> Option<usize> {
    let mark = from + samples[from..].iter().position(|&level| level)?;
    let gap = samples[mark..].iter().position(|&level| !level)?;
    Some(mark + gap)
}

/// The character whose start is the 0 at index `zero`. All its samples are
/// there: the caller has seen that the last of them, the stop, is.
fn character_at(format: &Format, samples: &[bool], zero: usize) -> Character {
    // Bit i of what follows the start is looked at in tick h+F(i+1), and no
    // other sample is.
    let bit = |i: u32| samples[zero + (format.half() + format.factor * (i + 1)) as usize];
    let data: Vec<bool> = (0..format.length).map(bit).collect();

    let mut value = 0;
    for (i, &level) in data.iter().enumerate() {
        value |= u8::from(level) << i;
    }

    let stop = zero + format.stop_sample() as usize;
    Character {
        at: stop as u32 + 1,
        value,
        parity: format.parity && bit(format.length) != format.parity_level(&data),
        framing: !samples[stop],
    }
}

/// A linear congruential generator: any other program can repeat it exactly.
pub struct Generator {
    pub seed: u32,
}

impl Generator {
    /// The low bits of such a generator repeat quickly, so the high half is used.
    pub fn draw(&mut self, n: u32) -> u32 {
        self.seed = self.seed.wrapping_mul(1664525).wrapping_add(1013904223);
        (self.seed / 65536) % n
    }
}
