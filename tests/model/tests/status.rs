//! The status byte that a device keeps (P7 of the change requests): what it has to be, on
//! the model's chip and followed call by call, devices whose byte is wrong, and wrong
//! programs, each found within the fixed seeds.

mod faults;
mod wrong_status;

use model::board::lines::{Bench as Boards, Line as BoardLine, Side};
use model::board::reach::Reach as BoardReach;
use model::board::{Board, Call as BoardCall};
use model::calls::{numbers, Call, Garbage, Lent, Line, DEVICE_BYTES};
use model::chip::{joined_tick, set_up, Chip, View};
use model::driver::{self, difference, shortest, text};
use model::generate::ranges::{device, draws, left_behind, wrong_status as wrongly_stated};
use model::generate::{boards, calls, pairs, session, Kind, SESSIONS};
use model::pair::lines::{Bench as Pairs, Line as PairLine, Make as MakeOnPair};
use model::pair::reach::Reach as PairReach;
use model::pair::{Call as PairCall, Pair};
use model::ranges::{fields_in_range, in_range, meant_status, restated, STATUS};
use model::reach::Reach;
use model::session::{answer, Unit, UNITS};
use model::shorten;

type Bytes = [u8; DEVICE_BYTES];

/// The byte that a chip's bytes have.
fn kept(chip: &Chip) -> u8 {
    chip.bytes()[STATUS]
}

// What the byte is.

#[test]
fn a_device_just_reset_keeps_0_and_zeros_would_keep_192() {
    assert_eq!(kept(&Chip::just_reset()), 0);
    let zeros = [0; DEVICE_BYTES];
    assert!(fields_in_range(&zeros) && !in_range(&zeros));
    assert_eq!(meant_status(&zeros), 192);
    assert!(in_range(&restated(zeros)));
}

#[test]
fn each_field_has_its_bit() {
    let reset = Chip::just_reset().bytes();
    let with = |set: &[(usize, u8)]| {
        let mut bytes = reset;
        set.iter().for_each(|&(place, value)| bytes[place] = value);
        meant_status(&bytes)
    };
    for (set, status) in [
        (&[(9, 0)][..], 128),
        (&[(10, 0)], 64),
        (&[(11, 0)], 0),
        (&[(56, 1)], 32),
        (&[(57, 1)], 16),
        (&[(58, 1)], 8),
        (&[(59, 1)], 4),
        (&[(60, 1)], 4),
        (&[(59, 1), (60, 1)], 4),
        (&[(44, 1)], 2),
        (&[(3, 1)], 1),
        (&[(3, 46)], 0),
        (&[(3, 1), (21, 1)], 0),
        (&[(21, 1)], 0),
    ] {
        assert_eq!(with(set), status, "{set:?}");
    }
}

#[test]
fn one_byte_of_256_is_in_range() {
    let draws = &mut draws(2);
    for _ in 0..2000 {
        let whole = device(draws);
        let chip = Chip::of_bytes(&whole).expect("it is in range");
        for byte in 0..=255 {
            let mut bytes = whole;
            bytes[STATUS] = byte;
            assert_eq!(in_range(&bytes), byte == chip.peek());
        }
    }
}

#[test]
fn a_status_read_answers_the_byte_from_before() {
    let draws = &mut draws(3);
    for _ in 0..2000 {
        let bytes = device(draws);
        let mut chip = Chip::of_bytes(&bytes).expect("it is in range");
        assert_eq!(chip.read(1), (0, bytes[STATUS]));
        // The change-mark is gone, and with it bit 2, where there is no empty-mark.
        let mark = 4 * bytes[59];
        assert_eq!(kept(&chip), bytes[STATUS] & !4 | mark);
    }
}

// The byte followed: what each call does to it, without a look at the fields behind.

/// Whether a receive tick is that of a stop sample.
fn arrives(before: &View) -> bool {
    let last = |(format, heard): (model::Format, usize)| heard == format.stop_sample() as usize;
    before.listening && before.hearing.is_some_and(last)
}

/// A frame's last tick, with nothing waiting and transmit enabled.
fn runs_empty(before: &View) -> bool {
    let last = |(format, ticks): (model::Format, usize)| ticks as u32 + 1 == format.frame_length();
    before.frame.is_some_and(last) && !before.waiting && !before.transmit_off()
}

/// The byte behind a receive tick. What flags a character brings is not seen before.
fn heard(byte: u8, before: &View, after: &View) -> u8 {
    match arrives(before) {
        true => byte | 2 | (byte & 2) << 3 | after.status & 40,
        false => byte,
    }
}

fn sent(byte: u8, before: &View) -> u8 {
    let begins = u8::from(before.starts_now());
    let marks = 4 * u8::from(runs_empty(before));
    byte | begins | marks
}

/// Bit 2 falls with one of its marks where the other is not set.
fn unmarked(byte: u8, other: bool) -> u8 {
    if other {
        byte
    } else {
        byte & !4
    }
}

fn commanded(byte: u8, value: u8, before: &View) -> u8 {
    let ready = value & 1 & !u8::from(before.waiting);
    let mut byte = byte & !1 | ready;
    if value & 1 == 0 {
        byte = unmarked(byte, before.change_mark);
    }
    if value & 4 == 0 {
        byte &= !2;
    }
    if value & 4 == 0 || value & 16 != 0 {
        byte &= !56;
    }
    byte
}

fn pinned(byte: u8, [dsr, dcd, _]: [u8; 3]) -> u8 {
    let pins = (1 - dsr) << 7 | (1 - dcd) << 6;
    let marks = 4 * u8::from(byte & 192 != pins);
    byte & !192 | pins | marks
}

/// The byte behind a call that is done on a device in range.
fn followed(byte: u8, call: &Call, before: &View, after: &View) -> u8 {
    match *call {
        Call::Reset => 0,
        Call::Read(0) => byte & !2,
        Call::Read(1) => unmarked(byte, before.empty_mark),
        Call::Write(0, _) => unmarked(byte & !1, before.change_mark),
        Call::Write(3, value) => commanded(byte, value, before),
        Call::Pins(levels) => pinned(byte, levels),
        Call::Transmit => sent(byte, before),
        Call::Receive(_) => heard(byte, before, after),
        Call::Tick(_) => sent(heard(byte, before, after), before),
        _ => byte,
    }
}

#[test]
fn the_byte_that_is_followed_is_what_the_fields_mean() {
    for lines in (0..calls::RUNS).map(calls::run) {
        let mut lent = Lent::InRange(Chip::just_reset());
        let mut byte = 0;
        for line in &lines {
            let before = lent.view();
            match line {
                Line::Call(call) => {
                    let was_out = matches!(lent, Lent::OutOfRange(_));
                    let (refusal, _) = lent.call(call);
                    match &lent {
                        // As given: it was refused, or only looked at.
                        Lent::OutOfRange(_) => {}
                        Lent::InRange(_) if refusal != 0 => assert!(!was_out),
                        Lent::InRange(_) => {
                            byte = if was_out { 0 } else { byte };
                            byte = followed(byte, call, &before, &lent.view());
                        }
                    }
                }
                _ => drop(lent.answer(line)),
            }
            let bytes = lent.bytes();
            if let Line::Device(..) = line {
                byte = bytes[STATUS];
            }
            assert_eq!(bytes[STATUS], byte, "{line}");
            if let Lent::InRange(chip) = &lent {
                assert_eq!((meant_status(&bytes), chip.peek()), (byte, byte), "{line}");
            }
        }
    }
}

#[test]
fn joined_ticks_keep_both_bytes() {
    let draws = &mut draws(4);
    for _ in 0..400 {
        let mut ends = [(); 2].map(|()| Chip::of_bytes(&device(draws)).expect("it is in range"));
        let mut followed = ends.each_ref().map(kept);
        for _ in 0..300 {
            let before = ends.each_ref().map(Chip::view);
            let [a, b] = &mut ends;
            joined_tick(a, b);
            for (place, end) in ends.iter().enumerate() {
                let byte = sent(followed[place], &before[place]);
                followed[place] = heard(byte, &before[place], &end.view());
                let bytes = end.bytes();
                assert_eq!(bytes[STATUS], followed[place]);
                assert_eq!(meant_status(&bytes), followed[place]);
            }
        }
    }
}

// Devices whose byte is wrong.

/// Devices in range but for their byte: wrong in any bits, or left behind by a field.
fn wrong_devices() -> Vec<Bytes> {
    let draws = &mut draws(5);
    let mut all = Vec::new();
    for _ in 0..500 {
        let whole = device(draws);
        all.extend((0..8).map(|bit| {
            let mut bytes = whole;
            bytes[STATUS] ^= 1 << bit;
            bytes
        }));
        all.push(wrongly_stated(draws, &whole));
        let (_, behind) = left_behind(draws, &whole);
        if !in_range(&behind) {
            all.push(behind);
        }
    }
    all
}

#[test]
fn a_wrong_byte_is_out_of_range_and_refused_calls_hand_it_back() {
    let refused = [
        (Call::Read(4), 1),
        (Call::Write(255, 0), 1),
        (Call::Write(2, 1), 3),
        (Call::Write(2, 64), 4),
        (Call::Write(3, 64), 5),
        (Call::Pins([0, 2, 0]), 2),
        (Call::Receive(2), 2),
        (Call::Tick(255), 2),
    ];
    for bytes in wrong_devices() {
        let given = Lent::of_bytes(bytes);
        assert_ne!(given.wrong_status(), 0);
        for (call, refusal) in refused {
            let mut lent = given.clone();
            assert_eq!(lent.call(&call).0, refusal);
            assert_eq!(lent, given, "{call}");
        }
    }
}

#[test]
fn looks_at_a_wrong_byte_are_those_of_a_reset_device() {
    let looks = [Call::Peek, Call::Outputs].into_iter();
    let looks: Vec<Call> = looks.chain(Call::OF_TALLIES).collect();
    for bytes in wrong_devices() {
        let given = Lent::of_bytes(bytes);
        let mut lent = given.clone();
        assert_eq!(lent.call(&Call::InRange), (0, vec![0]));
        for call in &looks {
            let of_reset = call.make(&mut Chip::just_reset());
            assert_eq!(lent.call(call), of_reset, "{call}");
        }
        assert_eq!(lent, given);
    }
}

#[test]
fn calls_that_are_done_take_a_wrong_byte_as_just_reset() {
    let done = [
        Call::Reset,
        Call::Read(0),
        Call::Read(1),
        Call::Read(2),
        Call::Read(3),
        Call::Write(0, 65),
        Call::Write(1, 65),
        Call::Write(2, 77),
        Call::Write(3, 37),
        Call::Pins([0, 0, 0]),
        Call::Transmit,
        Call::Receive(0),
        Call::Tick(1),
    ];
    for bytes in wrong_devices() {
        for call in done {
            let mut lent = Lent::of_bytes(bytes);
            let mut reset = Chip::just_reset();
            assert_eq!(lent.call(&call), call.make(&mut reset));
            assert_eq!(lent, Lent::InRange(reset), "{call}");
        }
    }
}

#[test]
fn a_pair_takes_each_wrong_byte_by_itself() {
    let whole = Lent::InRange(set_up(77, 0, 5));
    for bytes in wrong_devices().into_iter().step_by(7) {
        for unit in UNITS {
            let mut given = Pair {
                a: whole.clone(),
                b: whole.clone(),
            };
            *given.end_mut(unit) = Lent::of_bytes(bytes);
            let calls = [PairCall::Run(0), PairCall::Run(65_536)];
            let waits = [PairCall::Wait(0, 0), PairCall::Wait(1, 65_536)];
            for call in calls.into_iter().chain(waits) {
                let mut pair = given.clone();
                pair.call(&call);
                assert_eq!(pair, given, "{call:?}");
            }
            let mut settled = given.clone();
            *settled.end_mut(unit) = Lent::InRange(Chip::just_reset());
            let number = unit as u32;
            for call in [PairCall::Tick, PairCall::Run(9), PairCall::Wait(number, 9)] {
                let (mut pair, mut settled) = (given.clone(), settled.clone());
                assert_eq!(pair.call(&call), settled.call(&call));
                assert_eq!(pair, settled, "{call:?}");
            }
        }
    }
}

// Wrong programs.

/// The shortest run of calls that shows one, from the first that does.
fn found_by_calls(output: impl Fn(&[Line]) -> String) -> Option<Vec<Line>> {
    let wrong = |lines: &[Line]| difference(lines, &output(lines));
    let mut runs = (0..calls::RUNS).map(calls::run);
    let first = runs.find(|lines| wrong(lines).is_some())?;
    let until = wrong(&first).map_or(0, |difference| difference.line);
    Some(shortest(&first[..=until], |lines| wrong(lines).is_some()))
}

fn found_by_pairs(runs: std::ops::Range<u32>, make: MakeOnPair) -> Option<Vec<PairLine>> {
    driver::found(runs.map(pairs::run), || Pairs::new(make))
}

/// Those of runs, then those of waits.
const RUNS: std::ops::Range<u32> = 0..pairs::RUNS;
const WAITS: std::ops::Range<u32> = pairs::RUNS..pairs::RUNS + pairs::WAIT_RUNS;

#[test]
fn each_byte_that_is_not_kept_is_found_by_calls() {
    let all = wrong_status::FAULTS.iter();
    for wrong in all.chain(wrong_status::FAULTS_OUT_OF_RANGE) {
        let found = found_by_calls(|lines| faults::output(wrong.fault, lines)).expect(wrong.name);
        // A device or a set-up, at most two characters, and what shows it.
        assert!(found.len() <= 24, "{}:\n{}", wrong.name, text(&found));
    }
}

#[test]
fn each_wrong_look_at_a_byte_is_found_by_calls() {
    for (name, make) in wrong_status::ON_DEVICE {
        let output = |lines: &[Line]| {
            let mut lent = Lent::InRange(Chip::just_reset());
            let answers = lines.iter().map(|line| match line {
                Line::Call(call) => numbers(&make(&mut lent, call).1) + "\n",
                _ => lent.answer(line) + "\n",
            });
            answers.collect()
        };
        let found = found_by_calls(output).expect(name);
        assert!(found.len() <= 3, "{name}:\n{}", text(&found));
    }
}

#[test]
fn each_byte_that_is_not_kept_is_found_by_pairs() {
    for wrong in wrong_status::FAULTS {
        let found = found_by_pairs(RUNS, wrong.on_pair).expect(wrong.name);
        assert!(found.len() <= 16, "{}:\n{}", wrong.name, text(&found));
    }
}

#[test]
fn each_pair_that_takes_a_wrong_byte_otherwise_is_found() {
    let by_runs = wrong_status::ON_PAIR.iter().map(|wrong| (RUNS, wrong));
    let by_waits = wrong_status::ON_PAIR_BY_WAITS.iter();
    for (runs, (name, make)) in by_runs.chain(by_waits.map(|wrong| (WAITS, wrong))) {
        let found = found_by_pairs(runs, *make).expect(name);
        // At most both ends, a call, and what shows it.
        assert!(found.len() <= 4, "{name}:\n{}", text(&found));
    }
}

#[test]
fn each_byte_that_is_not_kept_is_found_by_boards() {
    let all = wrong_status::FAULTS.iter();
    let all = all.chain(wrong_status::FAULTS_OUT_OF_RANGE);
    let all = all.map(|wrong| (wrong.name, wrong.on_board));
    for (name, make) in all.chain(wrong_status::ON_BOARD.iter().copied()) {
        let runs = (0..boards::RUNS).map(boards::run);
        let found = driver::found(runs, || Boards::new(make)).expect(name);
        // A channel that is set up by its ports, a frame or a character, and what shows it.
        assert!(found.len() <= 24, "{name}:\n{}", text(&found));
    }
}

#[test]
fn bytes_that_are_not_kept_are_found_by_sessions() {
    // Out of range it is taken as just reset, which it is.
    let unseen = |wrong: &&wrong_status::Wrong| wrong.name == "a reset keeps the byte";
    for wrong in wrong_status::FAULTS.iter().filter(|wrong| !unseen(wrong)) {
        let differs = |input: &[u8]| faults::wrong_answer(wrong.fault, input) != answer(input);
        // A bench at work is hardly refused anything once it is set up.
        let kinds = [Kind::Realistic, Kind::Hostile].into_iter();
        let sessions = |kind| (0..SESSIONS).map(move |index| session(kind, index));
        let first = kinds.flat_map(sessions).find(|input| differs(input));
        let first = first.expect(wrong.name);
        let shortest = shorten::session(&first, differs);
        let lines = model::session::lines(&shortest).count();
        assert!(lines <= 16, "{}: {}", wrong.name, shortest.escape_ascii());
    }
}

// What was reached.

/// The counts of a name in a report.
fn counted(report: &str, name: &str) -> String {
    let begins = format!("{name}: ");
    let mut counts = report.lines().filter_map(|line| line.strip_prefix(&begins));
    let counts = counts.next().unwrap_or_else(|| panic!("no {name}"));
    counts.trim_end_matches(" MISSING").to_string()
}

/// Set up, with its byte wrong in bit 6.
fn wrong_in_bit_6() -> Bytes {
    let mut bytes = set_up(77, 0, 5).bytes();
    bytes[STATUS] ^= 64;
    bytes
}

#[test]
fn calls_on_wrong_bytes_are_counted_where_they_are_shown() {
    let wrong = Line::Device(Some(Garbage::Status), wrong_in_bit_6());
    let right = Line::Device(None, set_up(77, 0, 5).bytes());
    for (device, how) in [
        (wrong, "whose status byte alone is wrong"),
        (right, "that was lent in range"),
    ] {
        for (call, done) in [
            (Call::Read(1), "read done"),
            (Call::Read(4), "read refused"),
            (Call::Tick(2), "tick refused"),
            (Call::Peek, "peek done"),
        ] {
            let name = format!("{done} on a device {how}, shown");
            for (shown, count) in [(Line::Bytes, "1"), (Line::Call(Call::InRange), "0")] {
                let mut reach = Reach::of_calls();
                reach.run(&[device, Line::Call(call), shown]);
                assert_eq!(counted(&reach.report().0, &name), count, "{name}");
            }
        }
    }
    let mut reach = Reach::of_calls();
    reach.run(&[wrong, Line::Call(Call::Peek), Line::Bytes]);
    let by_bit = counted(
        &reach.report().0,
        "status byte alone wrong in one bit, by bit",
    );
    assert_eq!(by_bit, "0 0 0 0 0 0 1 0");
}

#[test]
fn bits_that_move_are_counted_where_they_are_shown() {
    let mut reach = Reach::of_calls();
    let call = Line::Call;
    reach.run(&[
        call(Call::Pins([0, 1, 1])),
        Line::Bytes,
        call(Call::Write(3, 1)),
        Line::Bytes,
        call(Call::Read(1)),
        call(Call::Write(0, 65)),
        Line::Bytes,
        call(Call::Reset),
        Line::Bytes,
    ]);
    let (report, _) = reach.report();
    for (name, count) in [
        ("status bit 7 set by a call of pins, shown", "1"),
        ("status bit 6 set by a call of pins, shown", "0"),
        ("status bit 2 set by a call of pins, shown", "1"),
        ("status bit 0 set by a write of address 3, shown", "1"),
        ("status bit 2 cleared by a read of address 1, shown", "0"),
        ("status bit 0 cleared by a write of address 0, shown", "1"),
        ("status bit 7 cleared by a reset, shown", "1"),
        ("status bit 0 cleared by a reset, shown", "0"),
    ] {
        assert_eq!(counted(&report, name), count, "{name}");
    }
}

/// What is counted by a name of a call, shown, on a pair of which B's status byte alone is
/// wrong: in bit 6, and in that it says unread, by which a wait must not go.
fn reached_with_b_wrong(call: PairCall, name: &str) -> String {
    let mut wrong = wrong_in_bit_6();
    wrong[STATUS] |= 2;
    let device = PairLine::Device(Unit::B, wrong);
    let mut reach = PairReach::of_pairs();
    reach.run(&[device, PairLine::Call(call), PairLine::Bytes]);
    counted(&reach.report().0, name)
}

#[test]
fn ends_with_wrong_bytes_are_counted() {
    for (call, name) in [
        (PairCall::Tick, "tick"),
        (PairCall::Run(0), "run of 0"),
        (PairCall::Run(65_536), "refused run"),
    ] {
        let name = format!("{name} with the status byte alone wrong, by end");
        assert_eq!(reached_with_b_wrong(call, &name), "0 1", "{name}");
    }
    for (number, what, counts) in [
        (1, "its unit's status byte alone wrong", "0 1"),
        (
            1,
            "its unit's status byte alone wrong and unread by that byte",
            "0 1",
        ),
        (
            1,
            "its unit's status byte alone wrong and marked unread",
            "0 0",
        ),
        (0, "the other's status byte alone wrong", "1 0"),
    ] {
        let wait = PairCall::Wait(number, 9);
        let name = format!("wait that uses up its limit with {what}, by unit");
        assert_eq!(reached_with_b_wrong(wait, &name), counts, "{name}");
    }
}

#[test]
fn channels_with_wrong_bytes_are_counted() {
    let device = BoardLine::Device(3, wrong_in_bit_6());
    let selected = BoardLine::Set(Board {
        select: 3,
        transmit_mask: 255,
        ..Board::numbered(0)
    });
    let reached = |call: BoardCall, name: &str| {
        let mut reach = BoardReach::of_boards();
        let lines = [selected, device, BoardLine::Call(call), BoardLine::Bytes(3)];
        reach.run(&lines);
        counted(&reach.report().0, name)
    };
    let shown = "channel whose status byte alone was wrong shown after in";
    assert_eq!(reached(BoardCall::In(1), shown), "1");
    assert_eq!(reached(BoardCall::In(6), shown), "0");
    let left = "channel whose status byte alone is wrong that a call of pins would have changed";
    let left = format!("{left}, shown after refusal 2");
    assert_eq!(reached(BoardCall::Pins(3, [0, 2, 0]), &left), "1");
    let polled = "port 4 read with a 0 for a status byte alone wrong that has the bit, by channel";
    assert_eq!(reached(BoardCall::In(4), polled), "0 0 0 1 0 0 0 0");
    let line = "transmit line enabled and not pending for fields that have the bit under a \
        status byte alone wrong, by channel";
    assert_eq!(reached(BoardCall::Interrupts, line), "0 0 0 1 0 0 0 0");
    // A right board counts nothing wrong.
    assert_eq!(Boards::new(Side::call).side().room[3].wrong_status(), 0);
}
