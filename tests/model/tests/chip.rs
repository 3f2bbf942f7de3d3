//! The chip, call by call: the cases of the document's section "The bench
//! cases", the session it works out, and its rules one by one, as P1 of the
//! change requests mends them.

use model::calls::{Call, Lent, DEVICE_BYTES};
use model::chip::{joined_ticks, set_up, Chip};
use model::{frame, read, Format};

// The status bits.
const READY_TO_SEND: u8 = 1;
const UNREAD: u8 = 2;
const MARK: u8 = 4;
const PARITY: u8 = 8;
const OVERRUN: u8 = 16;
const FRAMING: u8 = 32;
const FLAGS: u8 = PARITY + OVERRUN + FRAMING;
/// DSR and DCD low.
const PINS: u8 = 128 + 64;

// Commands: transmit enable, receive enable, force break, reset error.
const TRANSMIT: u8 = 1;
const RECEIVE: u8 = 4;
const BREAK: u8 = 8;
const RESET_ERROR: u8 = 16;

/// A chip set up, with the change-mark that the pins leave read away.
fn unmarked(mode1: u8, mode2: u8, command: u8) -> Chip {
    let mut chip = set_up(mode1, mode2, command);
    let ready = command & TRANSMIT;
    assert_eq!(chip.read(1), (0, PINS + MARK + ready));
    assert_eq!(chip.read(1), (0, PINS + ready));
    chip
}

fn sender(mode1: u8) -> Chip {
    unmarked(mode1, 0, TRANSMIT)
}

fn receiver(mode1: u8) -> Chip {
    unmarked(mode1, 0, RECEIVE)
}

/// The value of a read that is done.
fn get(chip: &mut Chip, address: u8) -> u8 {
    let (refusal, value) = chip.read(address);
    assert_eq!(refusal, 0);
    value
}

/// A write that is done.
fn put(chip: &mut Chip, address: u8, value: u8) {
    assert_eq!(chip.write(address, value), 0);
}

/// The status without DSR and DCD.
fn status(chip: &mut Chip) -> u8 {
    get(chip, 1) & !PINS
}

/// The levels of `count` transmit ticks.
fn send(chip: &mut Chip, count: usize) -> Vec<u8> {
    (0..count).map(|_| chip.transmit()).collect()
}

/// The levels of one whole frame, found by running the sender until it has its
/// empty-mark.
fn send_frame(chip: &mut Chip, character: u8) -> Vec<u8> {
    put(chip, 0, character);
    let mut levels = Vec::new();
    while chip.outputs()[2] == 1 {
        levels.push(chip.transmit());
    }
    levels
}

fn hear(chip: &mut Chip, levels: &[u8]) {
    for &level in levels {
        assert_eq!(chip.receive(level), 0);
    }
}

/// Mark, then each number of levels in turn, zeros first.
fn recording(counts: &[usize]) -> Vec<u8> {
    let mut levels = vec![1];
    for (i, &count) in counts.iter().enumerate() {
        levels.extend(vec![(i % 2) as u8; count]);
    }
    levels
}

/// Mark, then 255 in 8 bits odd with a factor of 1: a good character.
const GOOD: [u8; 12] = [1, 0, 1, 1, 1, 1, 1, 1, 1, 1, 1, 1];

/// Each error flag alone, and all three.
const FLAG_SETS: [u8; 4] = [PARITY, OVERRUN, FRAMING, FLAGS];

/// A receiver of 8 bits odd with a factor of 1 that holds an unread character
/// and has exactly `flags`, one of the sets above.
fn flagged(flags: u8) -> Chip {
    let mut chip = receiver(93);
    let levels = match flags {
        // 0 with a parity bit of 0 and a good stop.
        PARITY => recording(&[10, 1]),
        OVERRUN => [GOOD, GOOD].concat(),
        // 0 with its parity bit of 1 and a stop of 0.
        FRAMING => recording(&[9, 1, 1]),
        // Twice 0 with a parity bit of 0 and a stop of 0.
        _ => [recording(&[11]), recording(&[11])].concat(),
    };
    hear(&mut chip, &levels);
    assert_eq!(status(&mut chip), UNREAD + flags);
    chip
}

/// Levels of a frame as a list of numbers.
fn numbers(levels: Vec<bool>) -> Vec<u8> {
    levels.into_iter().map(u8::from).collect()
}

fn format(factor: u32, length: u32, parity: bool, even: bool, stop: u32) -> Format {
    Format {
        factor,
        length,
        parity,
        even,
        stop,
    }
}

/// Eight bits, no parity, one stop bit.
fn plain(factor: u32) -> Format {
    format(factor, 8, false, false, factor)
}

/// Ticks of `from` whose levels `to` takes.
fn join(from: &mut Chip, to: &mut Chip, count: usize) {
    for _ in 0..count {
        let level = from.transmit();
        assert_eq!(to.receive(level), 0);
    }
}

/// The number of ticks up to and including the one at which a character arrives.
fn arrival(from: &mut Chip, to: &mut Chip) -> usize {
    for count in 1..=2000 {
        join(from, to, 1);
        if to.outputs()[1] == 0 {
            return count;
        }
    }
    panic!("nothing arrives");
}

// The bench cases.

#[test]
fn frames_with_a_factor_of_1() {
    let cases = [
        (77, 65, vec![0, 1, 0, 0, 0, 0, 0, 1, 0, 1]),
        (89, 65, vec![0, 1, 0, 0, 0, 0, 0, 1, 1, 1]),
        (65, 255, vec![0, 1, 1, 1, 1, 1, 1]),
    ];
    for (mode1, character, levels) in cases {
        let mut chip = sender(mode1);
        assert_eq!(send_frame(&mut chip, character), levels, "mode {mode1}");
        assert_eq!(send(&mut chip, 50), vec![1; 50]);
    }
}

#[test]
fn lengths_and_stop_samples() {
    let cases = [
        (77, 10, 9),
        (89, 10, 9),
        (65, 7, 6),
        (206, 176, 152),
        (126, 176, 168),
        (255, 768, 672),
        (78, 160, 152),
        (79, 640, 608),
    ];
    for (mode1, length, stop_sample) in cases {
        let levels = send_frame(&mut sender(mode1), 65);
        assert_eq!(levels.len(), length, "L of {mode1}");

        // A sender that stood idle: arrival at 1+D.
        let (mut from, mut to) = (sender(mode1), receiver(mode1));
        join(&mut from, &mut to, 1);
        put(&mut from, 0, 21);
        assert_eq!(arrival(&mut from, &mut to), 1 + stop_sample, "D of {mode1}");
        assert_eq!(status(&mut to), UNREAD);
        assert_eq!(get(&mut to, 0), 21);
    }
}

#[test]
fn eight_zeros_are_a_false_start() {
    let mut chip = receiver(78);
    hear(&mut chip, &recording(&[8, 1000]));
    assert_eq!(status(&mut chip), 0);
    assert_eq!(get(&mut chip, 0), 0);
}

#[test]
fn nine_zeros_are_255() {
    let mut chip = receiver(78);
    hear(&mut chip, &recording(&[9, 1000]));
    assert_eq!(status(&mut chip), UNREAD);
    assert_eq!(get(&mut chip, 0), 255);
    assert_eq!(status(&mut chip), 0);
}

#[test]
fn even_received_as_odd() {
    let (mut from, mut to) = (sender(126), receiver(94));
    join(&mut from, &mut to, 1);
    put(&mut from, 0, 255);
    assert_eq!(arrival(&mut from, &mut to), 169);
    assert_eq!(status(&mut to), UNREAD + PARITY);
    assert_eq!(get(&mut to, 0), 255);

    // A good character after it leaves the flag, as do the reads.
    let good = send_frame(&mut sender(94), 65);
    join(&mut from, &mut to, 20);
    hear(&mut to, &good);
    assert_eq!(status(&mut to), UNREAD + PARITY);
    assert_eq!(get(&mut to, 0), 65);
    assert_eq!(status(&mut to), PARITY);
}

#[test]
fn two_hundred_zeros_are_one_character() {
    let mut chip = receiver(78);
    hear(&mut chip, &recording(&[200]));
    assert_eq!(status(&mut chip), UNREAD + FRAMING);
    assert_eq!(get(&mut chip, 0), 0);
    // No second: not in more zeros, nor in the ones after them.
    hear(&mut chip, &[0; 1000]);
    hear(&mut chip, &[1; 1000]);
    assert_eq!(status(&mut chip), FRAMING);
}

#[test]
fn factor_64_starts() {
    let mut chip = receiver(79);
    hear(&mut chip, &recording(&[32, 1000]));
    assert_eq!(status(&mut chip), 0);
    hear(&mut chip, &recording(&[33, 1000]));
    assert_eq!(status(&mut chip), UNREAD);
    assert_eq!(get(&mut chip, 0), 255);
}

#[test]
fn two_characters_unread() {
    let mut chip = receiver(77);
    hear(&mut chip, &[1]);
    hear(&mut chip, &numbers(frame(&plain(1), 65)));
    assert_eq!(status(&mut chip), UNREAD);
    hear(&mut chip, &numbers(frame(&plain(1), 66)));
    assert_eq!(status(&mut chip), UNREAD + OVERRUN);
    assert_eq!(get(&mut chip, 0), 66);
    assert_eq!(status(&mut chip), OVERRUN);
}

#[test]
fn addresses_3_and_4() {
    let mut chip = Chip::just_reset();
    assert_eq!(chip.read(3), (0, 0));
    assert_eq!(chip.read(4), (1, 0));
}

#[test]
fn the_worked_session() {
    let (mut a, mut b) = (Chip::just_reset(), Chip::just_reset());
    for chip in [&mut a, &mut b] {
        put(chip, 2, 206);
        put(chip, 2, 126);
        put(chip, 3, 39);
        assert_eq!(chip.set_pins(0, 0, 0), 0);
    }
    let tick = |a: &mut Chip, b: &mut Chip| {
        let (from_a, from_b) = (a.transmit(), b.transmit());
        assert_eq!(a.receive(from_b), 0);
        assert_eq!(b.receive(from_a), 0);
    };
    tick(&mut a, &mut b);
    put(&mut a, 0, 255);
    for _ in 0..152 {
        tick(&mut a, &mut b);
    }
    assert_eq!(b.read(1), (0, 197));
    tick(&mut a, &mut b);
    assert_eq!(b.read(1), (0, 195));
    assert_eq!(b.read(0), (0, 255));
    assert_eq!(b.read(1), (0, 193));
}

// "Refusal numbers".

/// Chips in the midst of things, so that much can be spoilt.
fn busy_chips() -> Vec<Chip> {
    let mut chips = vec![Chip::just_reset()];
    for (mode1, mode2) in [(77, 0), (127, 0), (254, 48)] {
        let mut chip = unmarked(mode1, mode2, 39);
        let line = [
            recording(&[30, 1]),
            recording(&[300, 1]),
            recording(&[700, 1, 4]),
        ];
        hear(&mut chip, &line.concat());
        put(&mut chip, 0, 65);
        send(&mut chip, 4);
        put(&mut chip, 0, 66);
        put(&mut chip, 1, 1);
        assert_eq!(chip.set_pins(1, 0, 0), 0);
        // The mode pointer at either register.
        chips.push(chip.clone());
        get(&mut chip, 2);
        chips.push(chip);
    }
    chips
}

#[test]
fn refusal_1_addresses_above_3() {
    for chip in busy_chips() {
        for address in 4..=255 {
            let mut tried = chip.clone();
            assert_eq!(tried.read(address), (1, 0));
            // The address is checked first, whatever the value.
            for value in [0, 1, 77, 192, 255] {
                assert_eq!(tried.write(address, value), 1);
            }
            assert_eq!(tried, chip);
        }
        for address in 0..=3 {
            assert_eq!(chip.clone().read(address).0, 0);
        }
    }
}

#[test]
fn refusal_2_levels() {
    for chip in busy_chips() {
        for level in 0..=255 {
            let number = if level > 1 { 2 } else { 0 };
            let mut tried = chip.clone();
            assert_eq!(tried.receive(level), number);
            assert!(number == 0 || tried == chip);
            for pins in [[level, 0, 1], [0, level, 1], [0, 1, level]] {
                let mut tried = chip.clone();
                assert_eq!(tried.set_pins(pins[0], pins[1], pins[2]), number);
                assert!(number == 0 || tried == chip);
            }
        }
    }
}

#[test]
fn refusals_3_and_4_of_mode_1() {
    for value in 0..=255u8 {
        let number = match (value >> 6, value & 3) {
            (_, 0) => 4,
            (0, _) => 3,
            _ => 0,
        };
        for mut chip in busy_chips() {
            // To mode 1.
            get(&mut chip, 3);
            let before = chip.clone();
            assert_eq!(chip.write(2, value), number);
            if number != 0 {
                assert_eq!(chip, before);
                assert_eq!(chip.write(2, 77), 0);
            }
            // Mode 2 takes anything.
            assert_eq!(chip.write(2, value), 0);
        }
    }
}

#[test]
fn refusal_5_of_the_command() {
    for chip in busy_chips() {
        for value in 0..=255u8 {
            let number = if value >> 6 == 0 { 0 } else { 5 };
            let mut tried = chip.clone();
            assert_eq!(tried.write(3, value), number);
            if number == 5 {
                // Not even bit 4 acts, nor does the lack of bits 0 and 2.
                assert_eq!(tried, chip);
            } else {
                assert_eq!(get(&mut tried, 3), value & !RESET_ERROR);
            }
        }
    }
}

// "Registers".

#[test]
fn just_reset() {
    let mut chip = Chip::just_reset();
    assert_eq!(chip.outputs(), [1; 5]);
    assert_eq!(chip.syn(), [0; 3]);
    for address in [0, 1, 2, 2, 3] {
        assert_eq!(chip.read(address), (0, 0));
    }
    for mut chip in busy_chips() {
        chip.reset();
        assert_eq!(chip, Chip::just_reset());
    }
}

#[test]
fn mode_pointer() {
    let mut chip = Chip::just_reset();
    put(&mut chip, 2, 77);
    put(&mut chip, 2, 201);
    // Wrapped, and bits 7-6 of mode 2 are kept.
    assert_eq!([2, 2, 2].map(|a| get(&mut chip, a)), [77, 201, 77]);
    put(&mut chip, 2, 3);
    assert_eq!([2, 2].map(|a| get(&mut chip, a)), [77, 3]);

    // A refused write does not move it, nor do other registers, ticks and pins.
    assert_eq!(chip.write(2, 0), 4);
    assert_eq!(chip.write(2, 1), 3);
    get(&mut chip, 2);
    get(&mut chip, 0);
    get(&mut chip, 1);
    put(&mut chip, 0, 1);
    put(&mut chip, 1, 2);
    put(&mut chip, 3, 5);
    assert_eq!(chip.write(3, 64), 5);
    assert_eq!(chip.set_pins(0, 1, 0), 0);
    chip.transmit();
    hear(&mut chip, &[1, 0]);
    assert_eq!(get(&mut chip, 2), 3);

    // A command read puts it back.
    get(&mut chip, 2);
    assert_eq!(get(&mut chip, 3), 5);
    assert_eq!(get(&mut chip, 2), 77);
    chip.reset();
    assert_eq!([2, 2].map(|a| get(&mut chip, a)), [0, 0]);
}

#[test]
fn syn_pointer() {
    let mut chip = Chip::just_reset();
    for (value, syn) in [
        (1, [1, 0, 0]),
        (2, [1, 2, 0]),
        (3, [1, 2, 3]),
        (4, [4, 2, 3]),
    ] {
        put(&mut chip, 1, value);
        assert_eq!(chip.syn(), syn);
    }
    // Neither status and mode reads nor a command write move it or put it back.
    get(&mut chip, 1);
    get(&mut chip, 2);
    put(&mut chip, 3, 0);
    put(&mut chip, 1, 5);
    assert_eq!(chip.syn(), [4, 5, 3]);
    // A command read does.
    get(&mut chip, 3);
    put(&mut chip, 1, 6);
    assert_eq!(chip.syn(), [6, 5, 3]);
    put(&mut chip, 1, 7);
    chip.reset();
    put(&mut chip, 1, 8);
    assert_eq!(chip.syn(), [8, 0, 0]);
}

#[test]
fn mode_2_first_starts_nothing() {
    let mut chip = Chip::just_reset();
    get(&mut chip, 2);
    // Mode 2, by the value of a good mode 1.
    put(&mut chip, 2, 77);
    put(&mut chip, 3, TRANSMIT + RECEIVE);
    assert_eq!(chip.set_pins(0, 0, 0), 0);
    put(&mut chip, 0, 0);
    assert_eq!(send(&mut chip, 50), vec![1; 50]);
    hear(&mut chip, &recording(&[50, 50]));
    assert_eq!(status(&mut chip), MARK);
    // Nor does a refused mode 1, and a break sends 1.
    assert_eq!(chip.write(2, 0), 4);
    put(&mut chip, 3, TRANSMIT + RECEIVE + BREAK);
    assert_eq!(send(&mut chip, 50), vec![1; 50]);
    // The character was kept, and no guard was set.
    put(&mut chip, 3, TRANSMIT + RECEIVE);
    put(&mut chip, 2, 77);
    put(&mut chip, 2, 0);
    assert_eq!(send(&mut chip, 10), [0, 0, 0, 0, 0, 0, 0, 0, 0, 1]);
}

#[test]
fn internal_clock_makes_the_factor_16() {
    // 8 bits, no parity, one stop bit, by the factors of mode 1, then by 16.
    for (mode1, factor) in [(77, 1), (78, 16), (79, 64)] {
        for (mode2, sent, heard) in [
            (0, factor, factor),
            (32, 16, factor),
            (16, factor, 16),
            (48, 16, 16),
            // The rate and the two highest bits have no say.
            (48 + 207, 16, 16),
            (207, factor, factor),
        ] {
            let mut chip = unmarked(mode1, mode2, TRANSMIT + RECEIVE);
            let levels = send_frame(&mut chip, 165);
            assert_eq!(levels, numbers(frame(&plain(sent), 165)));
            get(&mut chip, 0);
            hear(&mut chip, &[1]);
            hear(&mut chip, &numbers(frame(&plain(heard), 90)));
            assert_eq!(get(&mut chip, 1) & (UNREAD + FRAMING), UNREAD);
            assert_eq!(get(&mut chip, 0), 90, "{mode1} {mode2}");
        }
    }
}

#[test]
fn one_and_a_half_stop_bits() {
    for (mode1, mode2, length) in [
        (141, 0, 10),
        (141, 32, 168),
        (142, 0, 168),
        (143, 0, 672),
        (143, 32, 168),
    ] {
        let mut chip = unmarked(mode1, mode2, TRANSMIT);
        assert_eq!(send_frame(&mut chip, 65).len(), length);
    }
}

#[test]
fn reset_error_acts_once_and_reads_back_as_0() {
    let mut chip = flagged(FLAGS);
    get(&mut chip, 0);
    // Without bit 4 a command that leaves receive on clears nothing.
    put(&mut chip, 3, RECEIVE + 2);
    assert_eq!(status(&mut chip), FLAGS);
    assert_eq!(chip.write(3, 64 + RESET_ERROR), 5);
    assert_eq!(status(&mut chip), FLAGS);
    // With it the flags go, and the other bits act too.
    put(&mut chip, 3, RESET_ERROR + RECEIVE);
    assert_eq!(get(&mut chip, 3), RECEIVE);
    assert_eq!(status(&mut chip), 0);
    // It is not in force any longer.
    hear(&mut chip, &recording(&[11]));
    assert_eq!(status(&mut chip), UNREAD + PARITY + FRAMING);
    put(&mut chip, 3, RESET_ERROR + RECEIVE);
    assert_eq!(status(&mut chip), UNREAD);
    // Without bit 4 a command that leaves receive off clears them too: P1.
    hear(&mut chip, &recording(&[11]));
    assert_eq!(status(&mut chip), UNREAD + FLAGS);
    put(&mut chip, 3, 0);
    assert_eq!(status(&mut chip), 0);
}

#[test]
fn rhr_gives_its_character_again() {
    let mut chip = receiver(77);
    assert_eq!(get(&mut chip, 0), 0);
    hear(&mut chip, &[1]);
    hear(&mut chip, &numbers(frame(&plain(1), 65)));
    for _ in 0..3 {
        assert_eq!(get(&mut chip, 0), 65);
        assert_eq!(status(&mut chip), 0);
    }
    hear(&mut chip, &numbers(frame(&plain(1), 66)));
    // Emptied without having been read.
    put(&mut chip, 3, 0);
    assert_eq!(status(&mut chip), 0);
    assert_eq!(get(&mut chip, 0), 66);
    chip.reset();
    assert_eq!(get(&mut chip, 0), 0);
}

#[test]
fn thr_is_replaced() {
    let mut chip = sender(77);
    put(&mut chip, 0, 1);
    assert_eq!(status(&mut chip), 0);
    put(&mut chip, 0, 65);
    assert_eq!(send(&mut chip, 10), numbers(frame(&plain(1), 65)));
    assert_eq!(send(&mut chip, 20), vec![1; 20]);
    // Within a frame too.
    put(&mut chip, 0, 2);
    send(&mut chip, 1);
    put(&mut chip, 0, 3);
    put(&mut chip, 0, 66);
    assert_eq!(send(&mut chip, 9), numbers(frame(&plain(1), 2))[1..]);
    assert_eq!(send(&mut chip, 10), numbers(frame(&plain(1), 66)));
    assert_eq!(status(&mut chip), READY_TO_SEND + MARK);
}

#[test]
fn status_bit_0() {
    let mut chip = sender(77);
    assert_eq!(status(&mut chip), READY_TO_SEND);
    put(&mut chip, 0, 65);
    assert_eq!(status(&mut chip), 0);
    // THR is empty from the frame's first tick on.
    send(&mut chip, 1);
    assert_eq!(status(&mut chip), READY_TO_SEND);
    put(&mut chip, 3, 0);
    assert_eq!(status(&mut chip), 0);
    // Neither CTS nor the mode has a say.
    let mut unset = Chip::just_reset();
    put(&mut unset, 3, TRANSMIT);
    assert_eq!(status(&mut unset), READY_TO_SEND);
}

#[test]
fn empty_mark() {
    let mut chip = sender(77);
    put(&mut chip, 0, 65);
    send(&mut chip, 9);
    assert_eq!(status(&mut chip), READY_TO_SEND);
    send(&mut chip, 1);
    // A status read does not clear it, nor do ticks.
    assert_eq!(status(&mut chip), READY_TO_SEND + MARK);
    send(&mut chip, 5);
    assert_eq!(status(&mut chip), READY_TO_SEND + MARK);
    // A THR write does.
    put(&mut chip, 0, 66);
    assert_eq!(status(&mut chip), 0);
    // With THR full at the frame's end it is not set.
    send(&mut chip, 1);
    put(&mut chip, 0, 67);
    send(&mut chip, 9);
    assert_eq!(status(&mut chip), 0);
    send(&mut chip, 10);
    assert_eq!(status(&mut chip), READY_TO_SEND + MARK);
    // A command that leaves transmit on keeps it, one that leaves it off clears
    // it, and enabling an idle sender does not set it.
    put(&mut chip, 3, TRANSMIT + 32);
    assert_eq!(status(&mut chip), READY_TO_SEND + MARK);
    put(&mut chip, 3, 32);
    assert_eq!(status(&mut chip), 0);
    put(&mut chip, 3, TRANSMIT);
    send(&mut chip, 20);
    assert_eq!(status(&mut chip), READY_TO_SEND);
}

#[test]
fn empty_mark_asks_at_the_last_tick() {
    // Transmit off over the last tick: no mark, then or later.
    let mut chip = sender(77);
    put(&mut chip, 0, 65);
    send(&mut chip, 9);
    put(&mut chip, 3, 0);
    send(&mut chip, 1);
    put(&mut chip, 3, TRANSMIT);
    send(&mut chip, 20);
    assert_eq!(status(&mut chip), READY_TO_SEND);
    // Off and on again before it: a mark. CTS and break are not asked about.
    put(&mut chip, 0, 65);
    send(&mut chip, 5);
    put(&mut chip, 3, 0);
    send(&mut chip, 2);
    put(&mut chip, 3, TRANSMIT + BREAK);
    assert_eq!(chip.set_pins(0, 0, 1), 0);
    send(&mut chip, 3);
    assert_eq!(status(&mut chip), READY_TO_SEND + MARK);
}

#[test]
fn change_mark() {
    let mut chip = Chip::just_reset();
    // The inputs are taken as high.
    assert_eq!(chip.set_pins(1, 1, 1), 0);
    assert_eq!(get(&mut chip, 1), 0);
    // CTS alone does not count.
    assert_eq!(chip.set_pins(1, 1, 0), 0);
    assert_eq!(get(&mut chip, 1), 0);
    for (pins, value) in [([0, 1, 0], 128), ([0, 0, 0], 192), ([1, 0, 1], 64)] {
        assert_eq!(chip.set_pins(pins[0], pins[1], pins[2]), 0);
        assert_eq!(chip.outputs()[2], 0);
        assert_eq!(get(&mut chip, 1), value + MARK);
        assert_eq!(chip.outputs()[2], 1);
        assert_eq!(get(&mut chip, 1), value);
    }
    // It stays through a change back, a refused read and a THR write.
    assert_eq!(chip.set_pins(0, 0, 1), 0);
    assert_eq!(chip.set_pins(1, 0, 1), 0);
    assert_eq!(chip.set_pins(1, 2, 1), 2);
    assert_eq!(chip.read(4), (1, 0));
    put(&mut chip, 0, 1);
    put(&mut chip, 3, 0);
    assert_eq!(get(&mut chip, 1), 64 + MARK);
    assert_eq!(chip.set_pins(0, 0, 1), 0);
    chip.reset();
    assert_eq!(get(&mut chip, 1), 0);
}

#[test]
fn marks_are_two() {
    // A status read clears the change-mark and leaves the empty-mark, a THR
    // write the other way about.
    let mut chip = sender(77);
    send_frame(&mut chip, 65);
    assert_eq!(chip.set_pins(1, 0, 0), 0);
    assert_eq!(status(&mut chip), READY_TO_SEND + MARK);
    assert_eq!(status(&mut chip), READY_TO_SEND + MARK);
    assert_eq!(chip.set_pins(0, 0, 0), 0);
    put(&mut chip, 0, 65);
    assert_eq!(status(&mut chip), MARK);
    assert_eq!(status(&mut chip), 0);
}

#[test]
fn outputs() {
    let mut chip = receiver(77);
    assert_eq!(chip.outputs(), [1, 1, 1, 1, 1]);
    put(&mut chip, 3, TRANSMIT + RECEIVE);
    assert_eq!(chip.outputs(), [0, 1, 1, 1, 1]);
    hear(&mut chip, &recording(&[1, 20]));
    assert_eq!(chip.outputs(), [0, 0, 1, 1, 1]);
    send_frame(&mut chip, 65);
    assert_eq!(chip.outputs(), [0, 0, 0, 1, 1]);
    put(&mut chip, 3, TRANSMIT + RECEIVE + 2);
    assert_eq!(chip.outputs(), [0, 0, 0, 0, 1]);
    put(&mut chip, 3, TRANSMIT + RECEIVE + 32);
    assert_eq!(chip.outputs(), [0, 0, 0, 1, 0]);
    put(&mut chip, 0, 1);
    assert_eq!(chip.outputs(), [1, 0, 1, 1, 0]);
}

// "Sending".

#[test]
fn what_holds_a_character_back() {
    let levels = numbers(frame(&plain(1), 65));
    // Transmit off, then CTS high, then no mode.
    let mut chip = unmarked(77, 0, 0);
    put(&mut chip, 0, 65);
    assert_eq!(send(&mut chip, 20), vec![1; 20]);
    put(&mut chip, 3, TRANSMIT);
    assert_eq!(send(&mut chip, 10), levels);

    let mut chip = sender(77);
    assert_eq!(chip.set_pins(0, 0, 1), 0);
    put(&mut chip, 0, 65);
    assert_eq!(send(&mut chip, 20), vec![1; 20]);
    assert_eq!(chip.set_pins(1, 1, 0), 0);
    assert_eq!(send(&mut chip, 10), levels);

    let mut chip = Chip::just_reset();
    put(&mut chip, 3, TRANSMIT);
    assert_eq!(chip.set_pins(0, 0, 0), 0);
    put(&mut chip, 0, 65);
    assert_eq!(send(&mut chip, 20), vec![1; 20]);
    put(&mut chip, 2, 77);
    assert_eq!(send(&mut chip, 10), levels);
}

#[test]
fn a_frame_begun_is_finished() {
    let levels = numbers(frame(&format(16, 8, true, true, 16), 165));
    let spoils: [fn(&mut Chip); 4] = [
        |chip| put(chip, 3, 0),
        |chip| assert_eq!(chip.set_pins(1, 1, 1), 0),
        |chip| put(chip, 3, TRANSMIT + BREAK),
        // Both modes: 5 bits, no parity, factor 64; then the internal clock.
        |chip| {
            get(chip, 3);
            put(chip, 2, 195);
            put(chip, 2, 48);
        },
    ];
    for spoil in spoils {
        for at in [1, 15, 16, 100, 175] {
            let mut chip = sender(126);
            put(&mut chip, 0, 165);
            let mut sent = send(&mut chip, at);
            spoil(&mut chip);
            sent.extend(send(&mut chip, 176 - at));
            assert_eq!(sent, levels);
        }
    }
}

#[test]
fn the_next_frame_has_the_new_mode() {
    let mut chip = sender(77);
    put(&mut chip, 0, 65);
    send(&mut chip, 1);
    put(&mut chip, 0, 255);
    // 5 bits, still a factor of 1.
    put(&mut chip, 2, 65);
    assert_eq!(send(&mut chip, 9), numbers(frame(&plain(1), 65))[1..]);
    assert_eq!(send(&mut chip, 7), [0, 1, 1, 1, 1, 1, 1]);
    // The internal clock, by mode 2 alone.
    put(&mut chip, 0, 255);
    send(&mut chip, 1);
    put(&mut chip, 2, 32);
    put(&mut chip, 0, 31);
    assert_eq!(send(&mut chip, 6), [1; 6]);
    let wide = format(16, 5, false, false, 16);
    assert_eq!(send(&mut chip, 112), numbers(frame(&wide, 31)));
}

#[test]
fn break_and_guard() {
    for (mode1, mode2, factor) in [(77, 0, 1), (78, 0, 16), (79, 0, 64), (79, 32, 16)] {
        let mut chip = unmarked(mode1, mode2, TRANSMIT + BREAK);
        put(&mut chip, 0, 0);
        assert_eq!(send(&mut chip, 100), vec![0; 100]);
        // The guard is F ticks of 1, then the frame begins.
        put(&mut chip, 3, TRANSMIT);
        assert_eq!(send(&mut chip, factor), vec![1; factor]);
        assert_eq!(chip.transmit(), 0);
        // No empty-mark came of the break.
        assert_eq!(status(&mut chip), READY_TO_SEND);
    }
}

#[test]
fn the_guard_falls_whatever_holds_the_sender() {
    let holds: [fn(&mut Chip); 3] = [
        |chip| put(chip, 3, 0),
        |chip| assert_eq!(chip.set_pins(0, 0, 1), 0),
        // A break that is not in force sends 1 and sets no guard.
        |chip| put(chip, 3, BREAK),
    ];
    for hold in holds {
        let mut chip = unmarked(78, 0, TRANSMIT + BREAK);
        put(&mut chip, 0, 0);
        send(&mut chip, 3);
        put(&mut chip, 3, TRANSMIT);
        assert_eq!(send(&mut chip, 4), [1; 4]);
        hold(&mut chip);
        assert_eq!(send(&mut chip, 5), [1; 5]);
        put(&mut chip, 3, TRANSMIT);
        assert_eq!(chip.set_pins(0, 0, 0), 0);
        assert_eq!(send(&mut chip, 8), [1, 1, 1, 1, 1, 1, 1, 0]);
    }
}

#[test]
fn the_guard_outlasts_a_mode_write_and_is_set_anew() {
    // 16 ticks of guard, also under a factor of 1.
    let mut chip = unmarked(78, 0, TRANSMIT + BREAK);
    send(&mut chip, 1);
    put(&mut chip, 2, 77);
    put(&mut chip, 3, TRANSMIT);
    put(&mut chip, 0, 0);
    assert_eq!(send(&mut chip, 10), [1; 10]);
    // A break within the guard is sent, and the guard is that of the mode now.
    put(&mut chip, 3, TRANSMIT + BREAK);
    assert_eq!(send(&mut chip, 2), [0, 0]);
    put(&mut chip, 3, TRANSMIT);
    assert_eq!(send(&mut chip, 2), [1, 0]);
}

#[test]
fn a_break_follows_the_frame_under_way() {
    let mut chip = sender(77);
    put(&mut chip, 0, 255);
    send(&mut chip, 1);
    put(&mut chip, 0, 66);
    put(&mut chip, 3, TRANSMIT + BREAK);
    assert_eq!(send(&mut chip, 9), [1; 9]);
    assert_eq!(send(&mut chip, 30), [0; 30]);
    put(&mut chip, 3, TRANSMIT);
    let next = [vec![1], numbers(frame(&plain(1), 66))].concat();
    assert_eq!(send(&mut chip, 11), next);
}

#[test]
fn reset_drops_the_frame_and_the_guard() {
    let set = |chip: &mut Chip, command: u8| {
        put(chip, 2, 78);
        put(chip, 2, 0);
        put(chip, 3, command);
        assert_eq!(chip.set_pins(0, 0, 0), 0);
    };
    let mut chip = sender(78);
    put(&mut chip, 0, 0);
    send(&mut chip, 1);
    put(&mut chip, 0, 0);
    chip.reset();
    set(&mut chip, TRANSMIT);
    assert_eq!(send(&mut chip, 200), vec![1; 200]);
    put(&mut chip, 3, TRANSMIT + BREAK);
    assert_eq!(chip.transmit(), 0);
    chip.reset();
    set(&mut chip, TRANSMIT);
    put(&mut chip, 0, 0);
    assert_eq!(chip.transmit(), 0);
}

// "Receiving".

#[test]
fn nothing_starts_without_a_mark() {
    let mut chip = receiver(77);
    hear(&mut chip, &[0; 100]);
    assert_eq!(status(&mut chip), 0);
}

#[test]
fn a_false_start_serves_as_the_mark() {
    let mut chip = receiver(78);
    hear(&mut chip, &recording(&[8, 1, 9, 143]));
    assert_eq!(status(&mut chip), 0);
    hear(&mut chip, &[1]);
    assert_eq!(status(&mut chip), UNREAD);
    assert_eq!(get(&mut chip, 0), 255);
}

#[test]
fn a_command_that_leaves_receive_off() {
    let mut chip = receiver(77);
    let levels = numbers(frame(&plain(1), 0));
    hear(&mut chip, &[1]);
    hear(&mut chip, &levels);
    hear(&mut chip, &levels[..5]);
    assert_eq!(status(&mut chip), UNREAD);
    // RHR is emptied and the character under way dropped at once, without a
    // tick while receive is off.
    put(&mut chip, 3, 0);
    put(&mut chip, 3, RECEIVE);
    assert_eq!(status(&mut chip), 0);
    // The wait is for a 1 now: the zeros of a second frame are no start.
    hear(&mut chip, &levels[..9]);
    hear(&mut chip, &[0; 50]);
    assert_eq!(status(&mut chip), 0);
    hear(&mut chip, &[1]);
    hear(&mut chip, &numbers(frame(&plain(1), 65)));
    assert_eq!(status(&mut chip), UNREAD);
    // One that leaves it on changes nothing.
    hear(&mut chip, &levels[..5]);
    put(&mut chip, 3, RECEIVE + 2);
    hear(&mut chip, &levels[5..]);
    assert_eq!(status(&mut chip), UNREAD + OVERRUN);
    assert_eq!(get(&mut chip, 0), 0);
}

#[test]
fn dcd_high_at_a_tick_drops_the_character() {
    let mut chip = receiver(77);
    let levels = numbers(frame(&plain(1), 65));
    hear(&mut chip, &[1]);
    hear(&mut chip, &levels);
    hear(&mut chip, &levels[..5]);
    assert_eq!(chip.set_pins(0, 1, 0), 0);
    // The 1 of such a tick is no mark, and RHR stays.
    hear(&mut chip, &[1]);
    assert_eq!(chip.set_pins(0, 0, 0), 0);
    hear(&mut chip, &[0; 50]);
    assert_eq!(status(&mut chip), UNREAD + MARK);
    assert_eq!(get(&mut chip, 0), 65);
    // Between two ticks DCD does no harm.
    hear(&mut chip, &[1]);
    hear(&mut chip, &levels[..5]);
    assert_eq!(chip.set_pins(0, 1, 0), 0);
    assert_eq!(chip.set_pins(0, 0, 0), 0);
    hear(&mut chip, &levels[5..]);
    assert_eq!(status(&mut chip), UNREAD + MARK);
}

#[test]
fn the_mode_of_a_character_is_that_of_its_tick_0() {
    let levels = numbers(frame(&plain(16), 165));
    for at in [1, 8, 9, 100, 152] {
        let mut chip = receiver(78);
        hear(&mut chip, &[1]);
        hear(&mut chip, &levels[..at]);
        put(&mut chip, 2, 65);
        put(&mut chip, 2, 0);
        hear(&mut chip, &levels[at..153]);
        assert_eq!(status(&mut chip), UNREAD, "at {at}");
        assert_eq!(get(&mut chip, 0), 165);
        // Now 5 bits, factor 1; the good stop was mark enough.
        hear(&mut chip, &[0, 1, 0, 1, 0, 1, 1]);
        assert_eq!(status(&mut chip), UNREAD);
        assert_eq!(get(&mut chip, 0), 21);
    }
    // Before tick 0 a mode write leaves the search as it is.
    let mut chip = receiver(77);
    hear(&mut chip, &[1]);
    put(&mut chip, 2, 78);
    hear(&mut chip, &levels);
    assert_eq!(get(&mut chip, 0), 165);
}

#[test]
fn wrong_parity_and_a_stop_of_0_and_overrun() {
    // 8 bits odd, factor 1: 0 with a parity bit of 0 and a stop of 0.
    let mut chip = receiver(93);
    hear(&mut chip, &recording(&[11]));
    assert_eq!(status(&mut chip), UNREAD + PARITY + FRAMING);
    hear(&mut chip, &recording(&[11]));
    assert_eq!(status(&mut chip), UNREAD + PARITY + OVERRUN + FRAMING);
    assert_eq!(get(&mut chip, 0), 0);
    assert_eq!(status(&mut chip), PARITY + OVERRUN + FRAMING);
}

#[test]
fn flags_outlast_good_characters_and_reads() {
    for flags in FLAG_SETS {
        let mut chip = flagged(flags);
        get(&mut chip, 0);
        assert_eq!(status(&mut chip), flags);
        for _ in 0..3 {
            hear(&mut chip, &GOOD);
            assert_eq!(status(&mut chip), UNREAD + flags);
            assert_eq!(get(&mut chip, 0), 255);
            assert_eq!(status(&mut chip), flags);
        }
        chip.reset();
        assert_eq!(get(&mut chip, 1), 0);
    }
}

#[test]
fn the_chip_hears_what_the_reading_reads() {
    // Samples from a plain generator, in runs of a few lengths.
    let mut seed: u32 = 7;
    let mut draw = |n: u32| {
        seed = seed.wrapping_mul(1664525).wrapping_add(1013904223);
        (seed / 65536) % n
    };
    for mode1 in (64..=255u8).filter(|mode1| mode1 & 3 != 0) {
        let factor = [1, 16, 64][usize::from(mode1 & 3) - 1];
        let length = 5 + u32::from((mode1 >> 2) & 3);
        let format = format(factor, length, mode1 & 16 != 0, mode1 & 32 != 0, factor);
        let mut samples = Vec::new();
        while samples.len() < 2000 {
            let level = draw(2) == 1;
            samples.extend(vec![level; draw(2 * factor) as usize + 1]);
        }
        let mut expected = read(&format, &samples).into_iter().peekable();
        let mut chip = receiver(mode1);
        for (i, &sample) in samples.iter().enumerate() {
            hear(&mut chip, &[u8::from(sample)]);
            let arrived = expected.next_if(|character| character.at as usize == i + 1);
            let value = status(&mut chip);
            match arrived {
                None => assert_eq!(value, 0),
                Some(character) => {
                    let parity = if character.parity { PARITY } else { 0 };
                    let framing = if character.framing { FRAMING } else { 0 };
                    assert_eq!(value, UNREAD + parity + framing);
                    assert_eq!(get(&mut chip, 0), character.value);
                    put(&mut chip, 3, RECEIVE + RESET_ERROR);
                }
            }
        }
        assert_eq!(expected.next(), None);
    }
}

// Both ticks in one call, and the looks that leave the device.

/// Rounds in which each chip is ticked with the level that the other sent last;
/// the levels that both sent last.
fn rounds(chips: [&mut Chip; 2], [mut from_a, mut from_b]: [u8; 2], count: usize) -> [u8; 2] {
    let [a, b] = chips;
    for _ in 0..count {
        let sent = [a.tick(from_b), b.tick(from_a)];
        assert_eq!(sent.map(|(refusal, _)| refusal), [0, 0]);
        [from_a, from_b] = sent.map(|(_, level)| level);
    }
    [from_a, from_b]
}

#[test]
fn rounds_of_ticks_are_joined_ticks() {
    let busy = busy_chips();
    for (i, a) in busy.iter().enumerate() {
        for b in &busy[..=i] {
            for count in [0, 1, 2, 9, 10, 11, 176, 800] {
                let (mut a1, mut b1) = (a.clone(), b.clone());
                let first = [a1.transmit(), b1.transmit()];
                let last = rounds([&mut a1, &mut b1], first, count);
                // The rounds end with one more transmit tick of each.
                let (mut a2, mut b2) = (a.clone(), b.clone());
                joined_ticks(&mut a2, &mut b2, count as u32);
                assert_eq!([a2.transmit(), b2.transmit()], last);
                assert_eq!((a1, b1), (a2, b2), "after {count}");
            }
        }
    }
}

#[test]
fn a_tick_is_a_receive_tick_then_a_transmit_tick() {
    for chip in busy_chips() {
        for level in [0, 1] {
            let (mut both, mut apart) = (chip.clone(), chip.clone());
            assert_eq!(apart.receive(level), 0);
            let sent = apart.transmit();
            assert_eq!(both.tick(level), (0, sent));
            assert_eq!(both, apart);
        }
    }
}

#[test]
fn a_refused_tick_does_nothing() {
    for chip in busy_chips() {
        for level in 2..=255 {
            let mut tried = chip.clone();
            assert_eq!(tried.tick(level), (2, 0));
            assert_eq!(tried, chip);
        }
    }
}

#[test]
fn a_peek_is_a_status_read_that_leaves_the_mark() {
    for chip in busy_chips() {
        assert_eq!(chip.peek(), chip.clone().read(1).1);
    }
    let mut chip = set_up(77, 0, 0);
    assert_eq!([chip.peek(), chip.peek()], [PINS + MARK; 2]);
    assert_eq!(get(&mut chip, 1), PINS + MARK);
    assert_eq!(chip.peek(), PINS);
}

/// Devices out of range: any bytes, as the model does not look at them.
fn out_of_range() -> Lent {
    Lent::OutOfRange([255; DEVICE_BYTES])
}

#[test]
fn looks_at_a_device_out_of_range_leave_it() {
    let mut lent = out_of_range();
    assert_eq!(lent.call(&Call::InRange), (0, vec![0]));
    assert_eq!(lent.call(&Call::Peek), (0, vec![0]));
    assert_eq!(lent.call(&Call::Outputs), (0, vec![1; 5]));
    assert_eq!(lent.call(&Call::InRange), (0, vec![0]));
    // A reset makes it one in range.
    assert_eq!(lent.call(&Call::Reset), (0, vec![0]));
    assert_eq!(lent.call(&Call::InRange), (0, vec![1]));
}

#[test]
fn a_tick_of_a_device_out_of_range() {
    let mut lent = out_of_range();
    // A refused one hands the bytes back as given.
    assert_eq!(lent.call(&Call::Tick(2)), (2, vec![2, 0]));
    assert_eq!(lent.call(&Call::InRange), (0, vec![0]));
    for level in [0, 1] {
        let mut lent = out_of_range();
        assert_eq!(lent.call(&Call::Tick(level)), (0, vec![0, 1]));
        assert_eq!(lent.call(&Call::InRange), (0, vec![1]));
        assert_eq!(lent.call(&Call::Peek), (0, vec![0]));
    }
}

// P1: the flags after receive is switched off.

/// The commands of normal operation that leave receive off.
fn off_commands() -> impl Iterator<Item = u8> {
    (0..64).filter(|value| value & RECEIVE == 0)
}

#[test]
fn receive_off_clears_the_flags() {
    for flags in FLAG_SETS {
        for value in off_commands() {
            let mut chip = flagged(flags);
            put(&mut chip, 3, value);
            // Ready to send is transmit enabled, as THR is empty.
            assert_eq!(status(&mut chip), value & TRANSMIT, "by {value}");
            // Reset error adds nothing to it.
            let mut reset = flagged(flags);
            put(&mut reset, 3, value | RESET_ERROR);
            assert_eq!(status(&mut reset), value & TRANSMIT);
            assert_eq!(chip, reset, "by {value}");
        }
    }
}

#[test]
fn receive_off_again_brings_no_flag_back() {
    // No flag is set while receive is off, so the second such command finds
    // none to clear.
    for flags in FLAG_SETS {
        for value in off_commands() {
            let mut chip = flagged(flags);
            put(&mut chip, 3, 0);
            hear(&mut chip, &recording(&[11, 1, 11]));
            put(&mut chip, 3, value);
            assert_eq!(status(&mut chip), value & TRANSMIT, "by {value}");
            put(&mut chip, 3, RECEIVE);
            assert_eq!(status(&mut chip), 0, "by {value}");
        }
    }
}

#[test]
fn receive_left_on_keeps_the_flags() {
    let on = |value: &u8| value & (RECEIVE + RESET_ERROR) == RECEIVE;
    for flags in FLAG_SETS {
        for value in (0..64).filter(on) {
            let mut chip = flagged(flags);
            put(&mut chip, 3, value);
            let ready = value & TRANSMIT;
            assert_eq!(status(&mut chip), UNREAD + flags + ready, "by {value}");
        }
    }
}

#[test]
fn a_refused_command_keeps_the_flags() {
    for flags in FLAG_SETS {
        for value in 64..=255 {
            let mut chip = flagged(flags);
            assert_eq!(chip.write(3, value), 5);
            assert_eq!(status(&mut chip), UNREAD + flags, "by {value}");
        }
    }
}

#[test]
fn ticks_with_dcd_high_keep_the_flags() {
    for flags in FLAG_SETS {
        let mut chip = flagged(flags);
        assert_eq!(chip.set_pins(0, 1, 0), 0);
        assert_eq!(status(&mut chip), UNREAD + flags + MARK);
        for level in [1, 0, 1] {
            hear(&mut chip, &[level; 50]);
            assert_eq!(status(&mut chip), UNREAD + flags);
        }
        assert_eq!(chip.set_pins(0, 0, 0), 0);
        hear(&mut chip, &[1; 50]);
        assert_eq!(status(&mut chip), UNREAD + flags + MARK);
    }
}

#[test]
fn the_cabinet_clears_a_bad_cell() {
    for flags in FLAG_SETS {
        // With ticks while receive is off, and without.
        for pause in [recording(&[11, 30]), Vec::new()] {
            let mut chip = flagged(flags);
            put(&mut chip, 3, 0);
            hear(&mut chip, &pause);
            put(&mut chip, 3, RECEIVE);
            assert_eq!(status(&mut chip), 0);
            // A good character comes without a flag, a bad one with its own.
            hear(&mut chip, &GOOD);
            assert_eq!(status(&mut chip), UNREAD);
            assert_eq!(get(&mut chip, 0), 255);
            hear(&mut chip, &recording(&[11]));
            assert_eq!(status(&mut chip), UNREAD + PARITY + FRAMING);
        }
    }
}
