//! Random devices against the C driver, whose command stands behind `--`: it
//! tells whether they are in range as the model does, and leaves their bytes.

use model::calls::{hexadecimal, without_padding, Lent, DEVICE_BYTES, PADDING};
use model::generate::ranges::{device, draws, left_behind, spoilt, wrong_status, FOLLOWED};
use model::program::Program;
use model::ranges::{in_range, STATUS};
use std::ops::RangeInclusive;
use std::process::ExitCode;

const RUNS: u32 = 16;
const DEVICES: u32 = 1500;
/// The devices of which one is shown after the look, since that takes long.
const SHOWN: usize = 9;
/// The bytes that may have any number: mode 2, SYN1, SYN2, DLE, RHR; then the stamps and
/// the tallies of each direction. So may padding.
const ANY: [usize; 5] = [1, 4, 5, 6, 43];
const TALLIES: [RangeInclusive<usize>; 2] = [24..=31, 48..=55];
/// The least count of what is told of a status byte.
const ENOUGH: u32 = 40;

/// What was reached: devices in range, those that one byte put out of range, those whose
/// status byte alone is wrong in one bit and in several, and those whose status byte alone
/// is wrong since it stayed behind a field that it follows.
struct Reach {
    inside: u32,
    out_by: [u32; DEVICE_BYTES],
    wrong_bit: [u32; 8],
    wrong_bits: u32,
    left_behind: [u32; DEVICE_BYTES],
}

impl Reach {
    fn new() -> Reach {
        Reach {
            inside: 0,
            out_by: [0; DEVICE_BYTES],
            wrong_bit: [0; 8],
            wrong_bits: 0,
            left_behind: [0; DEVICE_BYTES],
        }
    }

    /// A device out of range, and the byte by which it is no longer in range.
    fn out(&mut self, place: usize, bytes: &[u8; DEVICE_BYTES]) {
        match Lent::of_bytes(*bytes).wrong_status() {
            0 => self.out_by[place] += 1,
            _ if place != STATUS => self.left_behind[place] += 1,
            wrong => {
                self.out_by[STATUS] += 1;
                match wrong.count_ones() {
                    1 => self.wrong_bit[wrong.trailing_zeros() as usize] += 1,
                    _ => self.wrong_bits += 1,
                }
            }
        }
    }

    /// What is told of status bytes, and whether that is often enough.
    fn statuses(&self) -> (String, bool) {
        let left_behind = FOLLOWED.map(|place| self.left_behind[place]);
        let text = format!(
            "status byte alone wrong in one bit, by bit: {:?}\n\
             status byte alone wrong in several bits: {}\n\
             status byte left behind by byte {FOLLOWED:?}: {left_behind:?}\n",
            self.wrong_bit, self.wrong_bits
        );
        let mut all = self.wrong_bit.into_iter().chain(left_behind);
        let enough = |count: u32| count >= ENOUGH;
        (text, all.all(enough) && enough(self.wrong_bits))
    }

    /// Each byte put a device out of range, but one that may have any number put none out.
    fn check_bytes(&self) -> Result<(), String> {
        let out = |place: &usize| self.out_by[*place] > 0;
        if let Some(place) = (0..DEVICE_BYTES).find(|place| may_be_any(place) && out(place)) {
            return Err(format!(
                "byte {place}, which may have any number, put a device out of range"
            ));
        }
        match (0..DEVICE_BYTES).find(|place| !may_be_any(place) && !out(place)) {
            Some(place) => Err(format!("byte {place} put no device out of range")),
            None => Ok(()),
        }
    }

    /// Tells what was reached; the error is what was not.
    fn tell(&self) -> Result<(), String> {
        let (inside, out) = (self.inside, self.out_by.iter().sum::<u32>());
        println!(
            "random_ranges: {inside} devices in range and {out} out of it by one byte are told"
        );
        let (statuses, often) = self.statuses();
        print!("{statuses}");
        if !often {
            return Err(format!(
                "a kind of wrong status byte was told fewer than {ENOUGH} times"
            ));
        }
        self.check_bytes()
    }
}

/// Whether a byte may have any number.
fn may_be_any(place: &usize) -> bool {
    let tally = TALLIES.iter().any(|places| places.contains(place));
    tally || ANY.contains(place) || PADDING.contains(place)
}

/// The devices of a run, each one in range, then spoilt, then with a wrong status byte, and
/// with one that stayed behind another field.
fn run(index: u32, reach: &mut Reach) -> Vec<[u8; DEVICE_BYTES]> {
    let draws = &mut draws(index);
    let mut all = Vec::new();
    for _ in 0..DEVICES {
        let whole = device(draws);
        let (place, other) = spoilt(draws, &whole);
        assert!(in_range(&whole), "{}", hexadecimal(&whole));
        let wrong = (STATUS, wrong_status(draws, &whole));
        let left_behind = left_behind(draws, &whole);
        reach.inside += 1;
        all.push(whole);
        for (place, bytes) in [(place, other), wrong, left_behind] {
            match in_range(&bytes) {
                true => reach.inside += 1,
                false => reach.out(place, &bytes),
            }
            all.push(bytes);
        }
    }
    all
}

/// The lines to the driver about a device, and its answers.
fn lines(index: usize, bytes: &[u8; DEVICE_BYTES]) -> (String, String) {
    let mut ask = format!("device {}\nin_range\n", hexadecimal(bytes));
    let mut tell = format!("0\n{}\n", u8::from(in_range(bytes)));
    if index % SHOWN == 0 {
        ask += "bytes\n";
        tell += &format!("{}\n", hexadecimal(&without_padding(*bytes)));
    }
    (ask, tell)
}

/// How the driver's answers differ from the model's, if they do.
fn compare(driver: &Program, devices: &[[u8; DEVICE_BYTES]]) -> Result<(), String> {
    let all = devices.iter().enumerate();
    let all: Vec<(String, String)> = all.map(|(index, bytes)| lines(index, bytes)).collect();
    let input: String = all.iter().map(|(ask, _)| ask.as_str()).collect();
    let output = driver.answer(input.as_bytes())?;
    let output = String::from_utf8_lossy(&output);
    let mut answers = output.split_inclusive('\n');
    for (ask, tell) in &all {
        let answer: String = answers.by_ref().take(tell.lines().count()).collect();
        if answer != *tell {
            return Err(format!("{ask}the driver:\n{answer}"));
        }
    }
    Ok(())
}

/// Compares all runs and tells what they reached; the error is how the driver differs, or
/// what was not reached.
fn compare_all(driver: &Program) -> Result<(), String> {
    let mut reach = Reach::new();
    for index in 0..RUNS {
        compare(driver, &run(index, &mut reach)).map_err(|why| {
            format!("the driver and the model differ in the run of seed {index}\n{why}")
        })?;
    }
    reach.tell()
}

fn main() -> ExitCode {
    let driver = match Program::of_arguments() {
        Ok(driver) => driver,
        Err(usage) => {
            eprintln!("random_ranges: {usage}");
            return ExitCode::from(2);
        }
    };
    match compare_all(&driver) {
        Ok(()) => ExitCode::SUCCESS,
        Err(why) => {
            println!("random_ranges: {why}");
            ExitCode::FAILURE
        }
    }
}
