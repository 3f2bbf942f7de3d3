//! The ranges of a lent device's bytes (docs/RANGES.md), at some of their edges, and
//! the chip that they are. The status byte is the right one, but where it is tested
//! (`status.rs`).

use model::calls::{without_padding, Call, DEVICE_BYTES, PADDING};
use model::chip::{Chip, RECEIVE_TALLY, STAMP, START, TRANSMIT_TALLY};
use model::generate::ranges::{device, draws};
use model::ranges::{in_range, restated};

type Bytes = [u8; DEVICE_BYTES];

/// A device of zeros, its pins low, with some bytes set and its status byte by them.
fn with(set: &[(usize, &[u8])]) -> Bytes {
    let mut bytes = [0; DEVICE_BYTES];
    for &(place, numbers) in set {
        bytes[place..place + numbers.len()].copy_from_slice(numbers);
    }
    restated(bytes)
}

/// A frame of 8 bits, even, 2 stop bits and a factor of 64: L is 768.
fn frame(place: u16) -> Bytes {
    with(&[
        (12, &[255, 64, 8, 1, 1, 128]),
        (18, &place.to_le_bytes()),
        (20, &[9, 1]),
    ])
}

/// A character of 5 bits, odd, 1 stop bit and this factor, before a look.
fn character(factor: u8, look: u8, countdown: u8, value: u8, wrong: u8) -> Bytes {
    with(&[
        (32, &[2, countdown, value, wrong, look, 0]),
        (38, &[factor, 5, 1, 0, factor]),
    ])
}

#[test]
fn at_rest() {
    assert!(in_range(&with(&[])));
    assert!(in_range(&with(&[(9, &[1, 1, 1])])));
    assert!(!in_range(&[255; DEVICE_BYTES]));
    // Padding is no field.
    assert!(PADDING
        .iter()
        .all(|&place| in_range(&with(&[(place, &[255])]))));
    // Any tally and any stamp will do.
    for place in [START, TRANSMIT_TALLY, STAMP, RECEIVE_TALLY] {
        for byte in 0..4 {
            assert!((0..=255).all(|any| in_range(&with(&[(place + byte, &[any])]))));
        }
    }
    // The guard, and a character that waits or does not.
    assert!(in_range(&with(&[(22, &[64])])));
    assert!(!in_range(&with(&[(22, &[65])])));
    assert!(in_range(&with(&[(20, &[7, 1])])));
    assert!(!in_range(&with(&[(20, &[7, 0])])));
}

#[test]
fn mode_1_and_the_command() {
    for value in 0..=255 {
        let accepted = value & 3 != 0 && value >> 6 != 0;
        assert_eq!(in_range(&with(&[(0, &[value, 0, 1])])), accepted);
        assert_eq!(in_range(&with(&[(0, &[value, 0, 0])])), value == 0);
        assert_eq!(in_range(&with(&[(3, &[value])])), value & 208 == 0);
    }
}

#[test]
fn a_frame_under_way() {
    assert!(in_range(&frame(1)) && in_range(&frame(767)));
    assert!(!in_range(&frame(0)) && !in_range(&frame(768)));
    let mut guarded = frame(1);
    guarded[22] = 1;
    assert!(!in_range(&guarded));
}

#[test]
fn a_character_under_way() {
    // The start is looked at again after half a bit, and not with a factor of 1.
    assert!(in_range(&character(16, 0, 7, 0, 0)));
    assert!(!in_range(&character(16, 0, 8, 0, 0)));
    assert!(in_range(&character(16, 1, 15, 0, 0)));
    assert!(!in_range(&character(16, 1, 16, 0, 0)));
    assert!(!in_range(&character(1, 0, 0, 0, 0)));
    assert!(in_range(&character(1, 1, 0, 0, 0)));
    // The bits taken, then the parity and the stop.
    assert!(!in_range(&character(16, 1, 0, 1, 0)));
    assert!(in_range(&character(16, 2, 0, 1, 0)));
    assert!(!in_range(&character(16, 2, 0, 2, 0)));
    assert!(in_range(&character(16, 7, 0, 31, 1)));
    assert!(!in_range(&character(16, 7, 0, 32, 0)));
    assert!(!in_range(&character(16, 6, 0, 31, 1)));
    assert!(!in_range(&character(16, 8, 0, 31, 0)));
}

#[test]
fn drawn_devices_are_in_range() {
    let draws = &mut draws(0);
    assert!((0..20000).all(|_| in_range(&device(draws))));
}

#[test]
fn a_chip_has_the_bytes_that_it_is_made_of() {
    let draws = &mut draws(0);
    for _ in 0..20000 {
        let bytes = device(draws);
        let chip = Chip::of_bytes(&bytes).expect("it is in range");
        assert_eq!(chip.bytes(), without_padding(bytes));
    }
    assert_eq!(Chip::of_bytes(&[255; DEVICE_BYTES]), None);
}

#[test]
fn a_chip_by_its_bytes_goes_on_as_it_is() {
    let draws = &mut draws(1);
    for _ in 0..300 {
        let mut kept = Chip::of_bytes(&device(draws)).expect("it is in range");
        for _ in 0..200 {
            let mut again = Chip::of_bytes(&kept.bytes()).expect("it is in range");
            let level = draws.below(2) as u8;
            let value = draws.byte();
            let call = match draws.below(24) {
                0 => Call::Write(0, value),
                1 => Call::Write(2, value | 65),
                2 => Call::Write(3, value & 63),
                3 => Call::Read(value % 4),
                4 => Call::Pins([level, 0, 0]),
                _ => Call::Tick(level),
            };
            assert_eq!(call.make(&mut kept), call.make(&mut again));
            assert_eq!(kept.bytes(), again.bytes());
        }
    }
}
