//! The wait of P12 of the change requests: on the model's pair, in a session, and by a
//! second way of telling when it ends.

use model::calls::{Call as ChipCall, Lent, DEVICE_BYTES};
use model::chip::{set_up, Chip};
use model::driver::Entry;
use model::generate::{session, KINDS, SESSIONS};
use model::pair::lines::{Bench, Line};
use model::pair::{named, Call, Pair};
use model::session::{answer, lines, other, parse, Record, Unit, UNITS};

/// Both ends set up as in document 01's session, one tick at mark behind them: L is
/// 176 and D is 152.
fn at_mark() -> Pair {
    let chip = set_up(206, 126, 39);
    let [a, b] = [(); 2].map(|()| Lent::InRange(chip.clone()));
    let mut pair = Pair { a, b };
    pair.tick();
    pair
}

fn write(pair: &mut Pair, unit: Unit, value: u8) {
    assert_eq!(pair.call(&Call::On(unit, ChipCall::Write(0, value))).0, 0);
}

fn read(pair: &mut Pair, unit: Unit, address: u8) -> u32 {
    pair.call(&Call::On(unit, ChipCall::Read(address))).1[1]
}

/// A character for `unit` is under way from its first tick on.
fn to_come(unit: Unit) -> Pair {
    let mut pair = at_mark();
    write(&mut pair, other(unit), 255);
    pair
}

/// It has come and is unread.
fn there(unit: Unit) -> Pair {
    let mut pair = to_come(unit);
    assert_eq!(pair.run(153), 0);
    pair
}

/// The wait spends so many ticks, and the pair is as behind a run of as many.
fn spends(pair: &Pair, unit: Unit, limit: u32, spent: u16) -> Pair {
    let (mut waited, mut ran) = (pair.clone(), pair.clone());
    assert_eq!(waited.wait(unit, limit), Ok(spent), "limit {limit}");
    assert_eq!(ran.run(spent.into()), 0);
    assert_eq!(waited, ran);
    waited
}

// When it ends.

#[test]
fn a_character_there_already_is_not_waited_for() {
    for unit in UNITS {
        for limit in [0, 1, 328, 65_535] {
            spends(&there(unit), unit, limit, 0);
        }
    }
}

#[test]
fn it_ends_with_the_least_tick_that_brings_one() {
    for unit in UNITS {
        for limit in [153, 154, 328, 65_535] {
            let mut pair = spends(&to_come(unit), unit, limit, 153);
            assert_eq!(read(&mut pair, unit, 0), 255);
        }
    }
}

#[test]
fn it_ends_when_its_limit_is_used_up() {
    for unit in UNITS {
        for limit in [1, 2, 100, 152] {
            let pair = spends(&to_come(unit), unit, limit as u32, limit);
            // One tick more than 152 brings it, and what is left is waited for.
            spends(&pair, unit, 65_535, 153 - limit);
        }
        spends(&at_mark(), unit, 328, 328);
        spends(&at_mark(), unit, 65_535, 65_535);
    }
}

#[test]
fn a_limit_of_0_spends_nothing() {
    for unit in UNITS {
        for pair in [at_mark(), to_come(unit), there(unit)] {
            spends(&pair, unit, 0, 0);
        }
    }
}

#[test]
fn a_character_at_the_other_unit_ends_nothing() {
    for unit in UNITS {
        spends(&there(other(unit)), unit, 300, 300);
        spends(&to_come(other(unit)), unit, 300, 300);
        // Both come with the same tick.
        let mut both = to_come(unit);
        write(&mut both, unit, 1);
        let mut both = spends(&both, unit, 300, 153);
        assert_eq!(read(&mut both, other(unit), 0), 1);
    }
}

#[test]
fn what_is_read_is_not_there_and_the_next_one_is_waited_for() {
    let mut pair = to_come(Unit::B);
    pair.tick();
    write(&mut pair, Unit::A, 1);
    let mut pair = spends(&pair, Unit::B, 328, 152);
    spends(&pair, Unit::B, 328, 0);
    assert_eq!(read(&mut pair, Unit::B, 0), 255);
    // Frame behind frame: L ticks from one to the next.
    let mut pair = spends(&pair, Unit::B, 328, 176);
    assert_eq!(read(&mut pair, Unit::B, 0), 1);
    spends(&pair, Unit::B, 500, 500);
}

#[test]
fn what_a_break_is_heard_as_ends_it_once() {
    let mut pair = at_mark();
    pair.call(&Call::On(Unit::A, ChipCall::Write(3, 47)));
    let mut pair = spends(&pair, Unit::B, 65_535, 153);
    // Framing, transmit on, DSR and DCD low, and the change-mark, which no wait clears.
    assert_eq!(read(&mut pair, Unit::B, 1), 32 + 2 + 1 + 128 + 64 + 4);
    assert_eq!(read(&mut pair, Unit::B, 0), 0);
    spends(&pair, Unit::B, 2000, 2000);
}

#[test]
fn one_that_nothing_can_reach_uses_up_its_limit() {
    // Receive off, DCD high, no mode.
    for call in [
        ChipCall::Write(3, 35),
        ChipCall::Pins([0, 1, 0]),
        ChipCall::Reset,
    ] {
        let mut pair = to_come(Unit::B);
        pair.call(&Call::On(Unit::B, call));
        spends(&pair, Unit::B, 400, 400);
    }
}

// Refusals.

#[test]
fn a_limit_above_65535_is_refused_before_all_else() {
    let mut spoilt = there(Unit::A);
    spoilt.b = Lent::of_bytes([255; DEVICE_BYTES]);
    let given = UNITS.map(|unit| [at_mark(), to_come(unit), there(unit)]);
    for pair in given.concat().into_iter().chain([spoilt]) {
        for limit in [65_536, 65_537, 99_999, 100_000, 131_072, u32::MAX] {
            for number in [0, 1, 256] {
                let mut refused = pair.clone();
                let answer = refused.call(&Call::Wait(number, limit));
                assert_eq!(answer, (21, vec![21, 0]), "{limit}");
                assert_eq!(refused, pair);
            }
        }
    }
}

#[test]
fn the_number_0_names_a_and_any_other_b() {
    assert_eq!(named(0), Unit::A);
    for number in [1, 2, 255, 256, 65_535, 65_536, 1 << 31, u32::MAX] {
        assert_eq!(named(number), Unit::B);
        let mut pair = there(Unit::B);
        let answer = pair.call(&Call::Wait(number, 9));
        assert_eq!(answer, (0, vec![0, 0]));
    }
    let answer = there(Unit::B).call(&Call::Wait(0, 9));
    assert_eq!(answer, (0, vec![0, 9]));
}

// Devices out of range.

/// The bytes of a device that is out of range by its mode pointer, and marked unread.
fn marked() -> [u8; DEVICE_BYTES] {
    let mut bytes = there(Unit::A).a.bytes();
    assert_eq!(bytes[44], 1);
    bytes[7] = 2;
    bytes
}

/// A device just reset, to which one out of range comes but for its ticks since.
fn reset() -> Lent {
    Lent::InRange(Chip::just_reset())
}

#[test]
fn a_unit_out_of_range_holds_no_character() {
    for unit in UNITS {
        let mut given = there(other(unit));
        *given.end_mut(unit) = Lent::of_bytes(marked());
        // Nothing spent leaves it as given.
        spends(&given, unit, 0, 0);
        for limit in [1, 2, 300] {
            let after = spends(&given, unit, limit.into(), limit);
            assert_eq!(after.end(unit).untallied(), reset());
            assert_eq!(after.end(unit).view().receive_tally, limit.into());
            // The other goes on as it stands.
            assert!(after.end(other(unit)).holds_unread());
        }
    }
}

#[test]
fn the_other_unit_out_of_range_is_reset_with_the_first_tick() {
    for unit in UNITS {
        let spoilt = Lent::of_bytes(marked());
        let mut pair = there(unit);
        *pair.end_mut(other(unit)) = spoilt.clone();
        let after = spends(&pair, unit, 300, 0);
        assert_eq!(*after.end(other(unit)), spoilt);
        // Within a character its sender goes to mark, and what is left of it is ones.
        let mut pair = to_come(unit);
        pair.run(20);
        *pair.end_mut(other(unit)) = spoilt.clone();
        assert_eq!(*spends(&pair, unit, 0, 0).end(other(unit)), spoilt);
        let after = spends(&pair, unit, 300, 133);
        assert_eq!(after.end(other(unit)).untallied(), reset());
        assert_eq!(after.end(other(unit)).view().transmit_tally, 133);
    }
}

// The driver's line.

#[test]
fn the_lines_of_the_driver() {
    let mut bench = Bench::new(Pair::call);
    let mut enter = |number, limit| {
        let line = Line::Call(Call::Wait(number, limit));
        (line.to_string(), line.answer(&mut bench))
    };
    for (number, limit, text, answer) in [
        (0, 0, "wait 0 0", "0 0"),
        (1, 300, "wait 1 300", "0 300"),
        (u32::MAX, 65_535, "wait 4294967295 65535", "0 65535"),
        (0, 65_536, "wait 0 65536", "21 0"),
        (7, u32::MAX, "wait 7 4294967295", "21 0"),
    ] {
        assert_eq!(enter(number, limit), (text.to_string(), answer.to_string()));
    }
}

// A second way, by the text of sessions alone: what a wait answers is a number of ticks
// behind which a read of the status shows a character, or the limit, and one tick less
// shows none.

/// The status of `unit` behind some lines and so many joined ticks.
fn status_behind(before: &[u8], ticks: u32, unit: Unit) -> u8 {
    let asked = format!("L\t{ticks}\nR\t{unit:?}\t1\n");
    let output = answer(&[before, asked.as_bytes()].concat());
    let output = String::from_utf8(output).unwrap();
    let read = output.lines().rev().nth(1).expect("a read");
    let status = read.strip_prefix(&format!("R\t{unit:?}\t1\t"));
    status.expect("the status").parse().unwrap()
}

/// The lines of a session up to each wait that is done, and that wait.
fn waits(input: &[u8]) -> Vec<(&[u8], Unit, u32)> {
    let mut at = 0;
    let mut waits = Vec::new();
    for line in lines(input) {
        match parse(line) {
            Ok(Record::Wait(unit, limit)) if limit <= 65_535 => {
                waits.push((&input[..at], unit, limit));
            }
            _ => {}
        }
        at += line.len() + 1;
    }
    waits
}

/// The counts of the waits that were done, in their order.
fn counts(output: &[u8]) -> Vec<u32> {
    let output = String::from_utf8_lossy(output);
    let waits = output.lines().filter_map(|line| line.strip_prefix("B\t"));
    waits.map(|rest| rest[2..].parse().unwrap()).collect()
}

#[test]
fn each_count_is_the_least_by_reads_of_the_status() {
    let mut done = 0;
    for kind in KINDS {
        for index in (0..SESSIONS).step_by(3) {
            let input = session(kind, index);
            let (waits, counts) = (waits(&input), counts(&answer(&input)));
            assert_eq!(waits.len(), counts.len());
            for ((before, unit, limit), count) in waits.into_iter().zip(counts) {
                let holds = |ticks| status_behind(before, ticks, unit) & 2 != 0;
                assert!(count <= limit && (count == limit || holds(count)));
                assert!(count == 0 || !holds(count - 1), "{kind:?} {index}");
                done += 1;
            }
        }
    }
    assert!(done > 6000, "only {done} waits");
}

/// The session with each wait that is done as a run of its count, and each one that is
/// refused as a line of no shape.
fn without_waits(input: &[u8], counts: &[u32]) -> Vec<u8> {
    let mut counts = counts.iter();
    let lines = lines(input).map(|line| match parse(line) {
        Ok(Record::Wait(_, 65_536..)) => b"x\n".to_vec(),
        Ok(Record::Wait(..)) => format!("L\t{}\n", counts.next().unwrap()).into_bytes(),
        _ => [line, b"\n"].concat(),
    });
    lines.collect::<Vec<_>>().concat()
}

/// What is answered but for the waits that are done, those that are refused as lines of
/// no shape.
fn other_answers(output: &[u8]) -> String {
    let output = String::from_utf8_lossy(output);
    let others = output.lines().filter(|line| !line.starts_with("B\t"));
    let others = others.map(|line| match line.strip_suffix("\t21") {
        Some(refused) if line.starts_with("E\t") => format!("{refused}\t6\n"),
        _ => format!("{line}\n"),
    });
    others.collect()
}

#[test]
fn a_wait_is_a_run_of_its_count() {
    for kind in KINDS {
        for index in 0..SESSIONS {
            let input = session(kind, index);
            let output = answer(&input);
            let other_way = answer(&without_waits(&input, &counts(&output)));
            let other_way = String::from_utf8(other_way).unwrap();
            assert_eq!(other_way, other_answers(&output), "{kind:?} {index}");
        }
    }
}
