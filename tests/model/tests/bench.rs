//! The cases of the document's section "The bench cases" that concern frames,
//! L, D and recordings, and a few more that follow from the rules directly.

use model::{frame, read, Character, Format};

/// Mode register 1, decoded by its table in "Registers".
fn mode(number: u8) -> Format {
    let factor = match number & 3 {
        1 => 1,
        2 => 16,
        3 => 64,
        _ => panic!("no factor"),
    };
    let stop = match number >> 6 {
        1 => factor,
        // One and a half; for a factor of 1 the division leaves one tick, as ruled.
        2 => 3 * factor / 2,
        3 => 2 * factor,
        _ => panic!("no stop"),
    };
    Format {
        factor,
        length: 5 + u32::from((number >> 2) & 3),
        parity: number & 16 != 0,
        even: number & 32 != 0,
        stop,
    }
}

fn levels(digits: &str) -> Vec<bool> {
    let digits = digits.chars().filter(|digit| *digit != ' ');
    digits.map(|digit| digit == '1').collect()
}

fn run(level: bool, count: usize) -> Vec<bool> {
    vec![level; count]
}

/// One sample of mark, then `zeros` samples of 0, then `ones` samples of 1.
fn pulse(zeros: usize, ones: usize) -> Vec<bool> {
    [run(true, 1), run(false, zeros), run(true, ones)].concat()
}

fn good(at: u32, value: u8) -> Character {
    Character {
        at,
        value,
        parity: false,
        framing: false,
    }
}

#[test]
fn modes_decode_as_the_cases_describe_them() {
    let format = |factor, length, parity, even, stop| Format {
        factor,
        length,
        parity,
        even,
        stop,
    };
    assert_eq!(mode(77), format(1, 8, false, false, 1));
    assert_eq!(mode(89), format(1, 7, true, false, 1));
    assert_eq!(mode(65), format(1, 5, false, false, 1));
    assert_eq!(mode(206), format(16, 8, false, false, 32));
    assert_eq!(mode(126), format(16, 8, true, true, 16));
    assert_eq!(mode(94), format(16, 8, true, false, 16));
    assert_eq!(mode(78), format(16, 8, false, false, 16));
    assert_eq!(mode(255), format(64, 8, true, true, 128));
    assert_eq!(mode(79), format(64, 8, false, false, 64));
}

#[test]
fn one_and_a_half_stop() {
    assert_eq!(mode(141).stop, 1);
    assert_eq!(mode(142).stop, 24);
    assert_eq!(mode(143).stop, 96);
    assert_eq!(mode(141).frame_length(), 10);
    assert_eq!(mode(142).frame_length(), 168);
    assert_eq!(mode(143).frame_length(), 672);
}

#[test]
fn frame_of_eight_bits() {
    assert_eq!(frame(&mode(77), 65), levels("0 1 0 0 0 0 0 1 0 1"));
}

#[test]
fn frame_of_seven_bits_odd() {
    assert_eq!(frame(&mode(89), 65), levels("0 1 0 0 0 0 0 1 1 1"));
}

#[test]
fn frame_of_five_bits_drops_the_higher_ones() {
    let format = mode(65);
    assert_eq!(frame(&format, 255), levels("0 1 1 1 1 1 1"));
    assert_eq!(format.frame_length(), 7);
    assert_eq!(format.stop_sample(), 6);
}

#[test]
fn dropped_bits_do_not_count_for_parity() {
    // Seven bits, odd: 128 is sent as 0, whose parity bit is then 1.
    assert_eq!(frame(&mode(89), 128), levels("0 0 0 0 0 0 0 0 1 1"));
}

#[test]
fn lengths_and_stop_samples() {
    for (number, length, stop_sample) in [(206, 176, 152), (126, 176, 168), (255, 768, 672)] {
        let format = mode(number);
        assert_eq!(format.frame_length(), length, "L of {number}");
        assert_eq!(format.stop_sample(), stop_sample, "D of {number}");
        assert_eq!(frame(&format, 65).len() as u32, length, "frame of {number}");
    }
}

#[test]
fn halves() {
    assert_eq!(mode(77).half(), 0);
    assert_eq!(mode(78).half(), 8);
    assert_eq!(mode(79).half(), 32);
}

#[test]
fn factor_16_false_start() {
    assert_eq!(read(&mode(78), &pulse(8, 1000)), []);
}

#[test]
fn factor_16_start() {
    // D is 152, after one sample of mark: index 153.
    assert_eq!(read(&mode(78), &pulse(9, 1000)), [good(154, 255)]);
}

#[test]
fn factor_64_false_start() {
    assert_eq!(read(&mode(79), &pulse(32, 1000)), []);
}

#[test]
fn factor_64_start() {
    // D is 608, after one sample of mark: index 609.
    assert_eq!(read(&mode(79), &pulse(33, 1000)), [good(610, 255)]);
}

#[test]
fn factor_1_start_is_one_zero() {
    assert_eq!(read(&mode(77), &pulse(1, 20)), [good(11, 255)]);
}

#[test]
fn even_read_as_odd_is_a_parity_error() {
    let samples = [run(true, 1), frame(&mode(126), 255), frame(&mode(94), 65)].concat();
    let wrong = Character {
        parity: true,
        ..good(170, 255)
    };
    // The character after it is good in itself; that the flag stays set is the
    // status register's doing, which keeps what any character has set.
    assert_eq!(read(&mode(94), &samples), [wrong, good(346, 65)]);
}

#[test]
fn break_is_one_character() {
    let broken = Character {
        framing: true,
        ..good(154, 0)
    };
    assert_eq!(read(&mode(78), &pulse(200, 0)), [broken]);
    assert_eq!(read(&mode(78), &pulse(200, 1000)), [broken]);
}

#[test]
fn factor_1_break_is_one_character() {
    let broken = Character {
        framing: true,
        ..good(11, 0)
    };
    assert_eq!(read(&mode(77), &pulse(50, 1)), [broken]);
    // The 1 that ends it is mark enough for a frame to follow.
    let samples = [pulse(50, 1), frame(&mode(77), 65)].concat();
    assert_eq!(read(&mode(77), &samples), [broken, good(62, 65)]);
}

#[test]
fn nothing_arrives_without_a_mark() {
    assert_eq!(read(&mode(77), &[]), []);
    assert_eq!(read(&mode(77), &run(false, 100)), []);
    assert_eq!(read(&mode(77), &run(true, 100)), []);
}

#[test]
fn nothing_arrives_before_the_stop_sample() {
    for number in [77, 78, 79] {
        let format = mode(number);
        let samples = [run(true, 1), frame(&format, 65)].concat();
        let needed = 2 + format.stop_sample();
        let (short, enough) = (needed as usize - 1, needed as usize);
        assert_eq!(read(&format, &samples[..short]), []);
        assert_eq!(read(&format, &samples[..enough]), [good(needed, 65)]);
    }
}

#[test]
fn false_start_serves_as_the_mark() {
    // One sample of 1, exactly where the second look falls, between zeros: the
    // next 0, at index 10, starts a character.
    let samples = [pulse(8, 1), run(false, 9), run(true, 1000)].concat();
    assert_eq!(read(&mode(78), &samples), [good(163, 255)]);
}

#[test]
fn samples_between_are_not_looked_at() {
    let format = mode(78);
    let clean = [run(true, 1), frame(&format, 165)].concat();
    let mut noisy = clean.clone();
    for (i, level) in noisy.iter_mut().enumerate().skip(2) {
        // Tick h of each bit lies at 8 more than a multiple of 16 after index 1.
        if (i - 1) % 16 != 8 {
            *level = !*level;
        }
    }
    // Up to the stop sample only: what follows it is searched in full.
    let end = 2 + format.stop_sample() as usize;
    assert_eq!(read(&format, &clean[..end]), [good(154, 165)]);
    assert_eq!(read(&format, &noisy[..end]), [good(154, 165)]);
}

#[test]
fn frames_end_to_end_are_read_back() {
    for number in 64..=255u8 {
        if number & 3 == 0 {
            continue;
        }
        let format = mode(number);
        let mut samples = run(true, 1);
        let mut expected = Vec::new();
        for byte in 0..=255u8 {
            let at = samples.len() as u32 + format.stop_sample() + 1;
            let kept = u32::from(byte) % (1 << format.length);
            expected.push(good(at, kept as u8));
            samples.extend(frame(&format, byte));
        }
        assert_eq!(read(&format, &samples), expected, "mode {number}");
    }
}
