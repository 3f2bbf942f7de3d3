//! The tallies of both clocks and what they stamp (P4 of the change requests): the rules
//! on the model's chip, and wrong programs, each found within the fixed seeds.

mod faults;
mod wrong_tallies;

use model::board::lines::Bench as Boards;
use model::calls::{Call, Lent, Line, DEVICE_BYTES};
use model::chip::{joined_ticks, number, set_number, set_up, Chip};
use model::chip::{RECEIVE_TALLY, STAMP, START, TRANSMIT_TALLY};
use model::delivery::judge;
use model::driver::{self, difference, shortest, text};
use model::generate::{boards, calls, pairs, senders, session, Kind, SESSIONS};
use model::pair::lines::Bench as Pairs;
use model::session::answer;
use model::{frame, read, shorten, Format};

/// 8 bits, no parity, a stop bit, a tick a bit (mode 1 = 77): L is 10 and D is 9.
const PLAIN: Format = Format {
    factor: 1,
    length: 8,
    parity: false,
    even: false,
    stop: 1,
};

fn hear(chip: &mut Chip, levels: &[bool]) {
    for &level in levels {
        assert_eq!(chip.receive(level.into()), 0);
    }
}

/// The stamp, the start, the transmit tally and the receive tally.
fn shown(chip: &Chip) -> [u32; 4] {
    [
        chip.stamp(),
        chip.start(),
        chip.transmit_tally(),
        chip.receive_tally(),
    ]
}

/// The chip with other tallies.
fn tallied(chip: &Chip, transmits: u32, receives: u32) -> Chip {
    let mut bytes = chip.bytes();
    set_number(&mut bytes, TRANSMIT_TALLY, transmits);
    set_number(&mut bytes, RECEIVE_TALLY, receives);
    Chip::of_bytes(&bytes).expect("any tally is in range")
}

// The tallies.

#[test]
fn every_tick_that_is_done_counts() {
    // No mode, receive and transmit off, DCD and CTS high, a break.
    let mut high = set_up(77, 0, 5);
    high.set_pins(0, 1, 1);
    for mut chip in [Chip::just_reset(), set_up(77, 0, 0), high, set_up(77, 0, 9)] {
        for ticks in 1..30 {
            chip.transmit();
            assert_eq!(shown(&chip), [0, 0, ticks, 2 * ticks - 2]);
            chip.receive(0);
            chip.receive(1);
            assert_eq!(shown(&chip), [0, 0, ticks, 2 * ticks]);
        }
    }
}

#[test]
fn a_refused_tick_counts_nothing() {
    let mut chip = tallied(&set_up(77, 0, 5), 7, 9);
    for level in 2..=255 {
        assert_eq!(chip.receive(level), 2);
        assert_eq!(chip.tick(level), (2, 0));
    }
    assert_eq!(shown(&chip), [0, 0, 7, 9]);
    chip.tick(1);
    assert_eq!(shown(&chip), [0, 0, 8, 10]);
}

#[test]
fn no_other_call_moves_them() {
    let mut chip = tallied(&set_up(77, 0, 5), 7, u32::MAX);
    for address in 0..=255 {
        chip.read(address);
        for value in 0..=255 {
            chip.write(address, value);
        }
    }
    chip.set_pins(1, 1, 1);
    chip.set_pins(0, 0, 2);
    chip.outputs();
    chip.peek();
    assert_eq!(shown(&chip), [0, 0, 7, u32::MAX]);
    chip.reset();
    assert_eq!(shown(&chip), [0; 4]);
}

#[test]
fn both_wrap() {
    let mut chip = tallied(&Chip::just_reset(), u32::MAX, u32::MAX - 1);
    chip.tick(1);
    assert_eq!(shown(&chip), [0, 0, 0, u32::MAX]);
    chip.tick(1);
    assert_eq!(shown(&chip), [0, 0, 1, 0]);
}

#[test]
fn a_joined_tick_counts_in_all_four() {
    let (mut a, mut b) = (set_up(77, 0, 5), tallied(&set_up(77, 0, 5), 5, u32::MAX));
    joined_ticks(&mut a, &mut b, 1000);
    assert_eq!(
        (shown(&a)[2..].to_vec(), shown(&b)[2..].to_vec()),
        (vec![1000; 2], vec![1005, 999])
    );
}

// The stamp.

#[test]
fn stamps_are_the_places_that_a_reading_finds() {
    // What arrives is read from the levels alone, with the number of samples up to it.
    for mode1 in [77, 93, 78, 94, 126, 206, 79] {
        let format = model::chip::decode(mode1, false);
        let mut levels = vec![true];
        for character in [65, 0, 255, 90] {
            levels.extend(frame(&format, character));
        }
        levels.extend(vec![false; 3 * format.frame_length() as usize]);
        levels.extend(vec![true; 9]);
        levels.extend(frame(&format, 1));
        let characters = read(&format, &levels);
        assert!(characters.len() > 5);
        for first in [0, 40, u32::MAX - format.frame_length()] {
            let mut chip = tallied(&set_up(mode1, 0, 4), 0, first);
            let mut stamps = Vec::new();
            for &level in &levels {
                chip.receive(level.into());
                if chip.holds_unread() {
                    stamps.push(chip.stamp());
                    chip.read(0);
                }
            }
            let places = characters
                .iter()
                .map(|character| first.wrapping_add(character.at));
            assert_eq!(stamps, places.collect::<Vec<u32>>());
        }
    }
}

#[test]
fn a_stamp_stays_with_its_character() {
    let mut chip = set_up(77, 0, 4);
    hear(&mut chip, &[true; 3]);
    hear(&mut chip, &frame(&PLAIN, 65)[..9]);
    assert_eq!(chip.stamp(), 0);
    hear(&mut chip, &[true]);
    assert_eq!((chip.stamp(), chip.receive_tally()), (13, 13));
    hear(&mut chip, &[true; 5]);
    // Read, read again, emptied, and read when it is empty.
    assert_eq!((chip.read(0), chip.stamp()), ((0, 65), 13));
    assert_eq!((chip.read(0), chip.stamp()), ((0, 65), 13));
    hear(&mut chip, &frame(&PLAIN, 66));
    assert_eq!(chip.stamp(), 28);
    chip.write(3, 0);
    hear(&mut chip, &[false; 4]);
    assert_eq!(
        (chip.read(0), chip.stamp(), chip.receive_tally()),
        ((0, 66), 28, 32)
    );
    // Ticks while receive was off count in the next one's; an overrun replaces it.
    chip.write(3, 4);
    hear(&mut chip, &[true]);
    hear(&mut chip, &frame(&PLAIN, 67));
    assert_eq!(chip.stamp(), 43);
    hear(&mut chip, &frame(&PLAIN, 68));
    assert_eq!(
        (chip.peek() & 16, chip.read(0), chip.stamp()),
        (16, (0, 68), 53)
    );
}

// The start.

#[test]
fn a_start_is_that_of_a_frame_and_of_nothing_else() {
    let mut chip = set_up(77, 0, 13);
    chip.write(0, 65);
    let transmits = |chip: &mut Chip, ticks| {
        for _ in 0..ticks {
            chip.transmit();
        }
    };
    transmits(&mut chip, 3);
    chip.write(3, 5);
    chip.transmit();
    // Three ticks of a break, one of its guard.
    assert_eq!((chip.start(), chip.transmit_tally()), (0, 4));
    for tick in 5..=14 {
        chip.transmit();
        assert_eq!((chip.start(), chip.transmit_tally()), (5, tick));
    }
    chip.transmit();
    chip.write(0, 66);
    assert_eq!(chip.start(), 5);
    let mut chip = tallied(&chip, u32::MAX, 0);
    chip.transmit();
    assert_eq!((chip.start(), chip.transmit_tally()), (0, 0));
    chip.write(0, 67);
    transmits(&mut chip, 10);
    assert_eq!((chip.start(), chip.transmit_tally()), (10, 10));
    chip.reset();
    assert_eq!(shown(&chip), [0; 4]);
}

// Devices out of range.

#[test]
fn a_device_out_of_range_has_none() {
    let given = Lent::of_bytes([255; DEVICE_BYTES]);
    for call in Call::OF_TALLIES {
        let mut lent = given.clone();
        assert_eq!(lent.call(&call), (0, vec![0]));
        assert_eq!(lent, given);
    }
    let mut lent = given.clone();
    assert_eq!(lent.call(&Call::Receive(2)).0, 2);
    let bytes = lent.bytes();
    let places = [START, TRANSMIT_TALLY, STAMP, RECEIVE_TALLY];
    assert_eq!(places.map(|place| number(&bytes, place)), [u32::MAX; 4]);
    lent.call(&Call::Tick(1));
    let bytes = lent.bytes();
    assert_eq!(places.map(|place| number(&bytes, place)), [0, 1, 0, 1]);
}

// Wrong programs.

/// The shortest run of calls that shows it, from the first that does.
fn found_by_calls(fault: faults::Fault) -> Option<Vec<Line>> {
    let wrong = |lines: &[Line]| difference(lines, &faults::output(fault, lines));
    let mut runs = (0..calls::RUNS).map(calls::run);
    let first = runs.find(|lines| wrong(lines).is_some())?;
    let until = wrong(&first).map_or(0, |difference| difference.line);
    Some(shortest(&first[..=until], |lines| wrong(lines).is_some()))
}

#[test]
fn right_tallies_are_found_right() {
    for lines in (0..calls::RUNS).step_by(17).map(calls::run) {
        let output = faults::output(|_, _, _, _| {}, &lines);
        assert_eq!(difference(&lines, &output), None);
    }
    for input in (0..SESSIONS)
        .step_by(60)
        .map(|index| session(Kind::Realistic, index))
    {
        assert_eq!(
            faults::wrong_answer(|_, _, _, _| {}, &input),
            answer(&input)
        );
    }
}

#[test]
fn each_wrong_tally_is_found_by_calls() {
    for wrong in wrong_tallies::ALL {
        let found = found_by_calls(wrong.fault).expect(wrong.name);
        // A device or a set-up, two characters or a frame, and the look that shows it.
        assert!(found.len() <= 28, "{}:\n{}", wrong.name, text(&found));
    }
}

#[test]
fn each_wrong_stamp_is_found_by_sessions() {
    for wrong in wrong_tallies::ALL.iter().filter(|wrong| wrong.in_sessions) {
        let differs = |input: &[u8]| faults::wrong_answer(wrong.fault, input) != answer(input);
        let mut sessions = (0..SESSIONS).map(|index| session(Kind::Realistic, index));
        let first = sessions.find(|input| differs(input)).expect(wrong.name);
        let shortest = shorten::session(&first, differs);
        let lines = model::session::lines(&shortest).count();
        assert!(lines <= 16, "{}: {}", wrong.name, shortest.escape_ascii());
    }
}

/// What demand 3's sessions cannot show: their receivers hear throughout, nothing overruns
/// there, and no character is bad.
const NOT_JUDGED: [&str; 7] = [
    "an emptied register has no stamp",
    "an overrun keeps the first stamp",
    "a false parity is not stamped",
    "ticks with receive off do not count",
    "ticks with DCD high do not count",
    "ticks with no mode do not count",
    "receive off puts the tally to 0",
];

#[test]
fn wrong_stamps_are_judged_by_their_answers_alone() {
    for wrong in wrong_tallies::ALL.iter().filter(|wrong| wrong.in_sessions) {
        let seen = |kind: Kind, index: u32| {
            let input = session(kind, index);
            let answer = faults::wrong_answer(wrong.fault, &input);
            judge(&input, &answer, &senders(kind, index)).is_err()
        };
        let judged = !NOT_JUDGED.contains(&wrong.name);
        // That nothing is seen takes long.
        let most = if judged { SESSIONS } else { SESSIONS / 20 };
        let seen_by = |kind| (0..most).any(|index| seen(kind, index));
        let by_any = seen_by(Kind::Alike) || seen_by(Kind::OneWay);
        assert_eq!(by_any, judged, "{}", wrong.name);
    }
}

#[test]
fn each_wrong_tally_is_found_by_pairs() {
    for wrong in wrong_tallies::ALL {
        let Some(make) = wrong.on_pair else { continue };
        let found = driver::found((0..pairs::RUNS).map(pairs::run), || Pairs::new(make));
        let found = found.expect(wrong.name);
        assert!(found.len() <= 24, "{}:\n{}", wrong.name, text(&found));
    }
}

#[test]
fn each_wrong_tally_is_found_by_boards() {
    for wrong in wrong_tallies::ALL {
        let Some(make) = wrong.on_board else { continue };
        let found = driver::found((0..boards::RUNS).map(boards::run), || Boards::new(make));
        let found = found.expect(wrong.name);
        // A channel that is set up by its ports, two characters, and what shows it.
        assert!(found.len() <= 28, "{}:\n{}", wrong.name, text(&found));
    }
}

/// A look that answers another number, on a device in range or out of it.
fn looks_wrong(lines: &[Line], other: fn(&Lent, &Call, u32) -> u32) -> String {
    let mut lent = Lent::InRange(Chip::just_reset());
    let answers = lines.iter().map(|line| match line {
        Line::Call(call) if Call::OF_TALLIES.contains(call) => {
            let right = lent.call(call).1[0];
            format!("{}\n", other(&lent, call, right))
        }
        _ => lent.answer(line) + "\n",
    });
    answers.collect()
}

#[test]
fn looks_that_answer_another_number_are_found() {
    type Look = fn(&Lent, &Call, u32) -> u32;
    let all: [(&str, Look); 3] = [
        (
            "a look at a device out of range shows its bytes",
            |lent, call, right| {
                let place = match call {
                    Call::Stamp => STAMP,
                    Call::Start => START,
                    Call::TransmitTally => TRANSMIT_TALLY,
                    _ => RECEIVE_TALLY,
                };
                match lent {
                    Lent::InRange(_) => right,
                    Lent::OutOfRange(bytes) => number(bytes, place),
                }
            },
        ),
        (
            "a tally is handed over as the other",
            |lent, call, right| {
                let view = lent.view();
                match call {
                    Call::TransmitTally => view.receive_tally,
                    Call::ReceiveTally => view.transmit_tally,
                    _ => right,
                }
            },
        ),
        ("a number is cut to 16 bits", |_, _, right| right & 65_535),
    ];
    for (name, look) in all {
        let differs = |lines: &[Line]| difference(lines, &looks_wrong(lines, look)).is_some();
        let first = (0..calls::RUNS)
            .map(calls::run)
            .find(|lines| differs(lines));
        let found = shortest(&first.expect(name), differs);
        // A device or a reset, at most a tick, and the look.
        assert!(found.len() <= 3, "{name}:\n{}", text(&found));
    }
}
