//! The model's pair: the joined tick of document 01 and the run of P9.

use model::calls::{Call as ChipCall, Lent, DEVICE_BYTES};
use model::chip::{joined_ticks, set_up, Chip};
use model::driver::Entry;
use model::pair::lines::{Bench, Line};
use model::pair::{Call, Pair};
use model::session::Unit;

/// Both ends set up as in document 01's session, one tick at mark behind them.
fn at_mark() -> Pair {
    let chip = set_up(206, 126, 39);
    let mut pair = Pair {
        a: Lent::InRange(chip.clone()),
        b: Lent::InRange(chip),
    };
    assert_eq!(pair.call(&Call::Tick), (0, vec![3]));
    pair
}

/// The bytes of a device whose mode pointer is none.
fn spoilt() -> [u8; DEVICE_BYTES] {
    let mut bytes = set_up(206, 126, 39).bytes();
    bytes[7] = 2;
    bytes
}

#[test]
fn the_worked_session_by_runs() {
    let mut pair = at_mark();
    let on = |pair: &mut Pair, unit, call| pair.call(&Call::On(unit, call)).1;
    assert_eq!(on(&mut pair, Unit::A, ChipCall::Write(0, 255)), [0]);
    assert_eq!(pair.call(&Call::Run(152)), (0, vec![0]));
    assert_eq!(on(&mut pair, Unit::B, ChipCall::Read(1)), [0, 197]);
    assert_eq!(pair.call(&Call::Run(1)), (0, vec![0]));
    for (address, value) in [(1, 195), (0, 255), (1, 193)] {
        let read = on(&mut pair, Unit::B, ChipCall::Read(address));
        assert_eq!(read, [0, value]);
    }
}

#[test]
fn a_tick_answers_both_levels() {
    let mut pair = at_mark();
    pair.call(&Call::On(Unit::A, ChipCall::Write(0, 1)));
    assert_eq!(pair.call(&Call::Tick).1, [2]);
    pair.call(&Call::On(Unit::B, ChipCall::Write(0, 1)));
    assert_eq!(pair.call(&Call::Tick).1, [0]);
    // The start bit of a has 14 ticks left, then comes a 1.
    pair.run(14);
    assert_eq!(pair.call(&Call::Tick).1, [1]);
}

#[test]
fn a_run_is_as_many_joined_ticks() {
    let (mut a, mut b) = (set_up(77, 0, 5), set_up(94, 0, 5));
    a.write(0, 65);
    b.write(0, 66);
    for ticks in [0, 1, 2, 10, 11, 300, 65_535] {
        let mut pair = Pair {
            a: Lent::InRange(a.clone()),
            b: Lent::InRange(b.clone()),
        };
        let (mut c, mut d) = (a.clone(), b.clone());
        joined_ticks(&mut c, &mut d, ticks);
        assert_eq!(pair.run(ticks), 0);
        assert_eq!(pair.a, Lent::InRange(c));
        assert_eq!(pair.b, Lent::InRange(d));
    }
}

#[test]
fn a_run_of_more_than_65535_is_refused() {
    let mut pair = at_mark();
    pair.call(&Call::On(Unit::A, ChipCall::Write(0, 255)));
    pair.b = Lent::of_bytes(spoilt());
    let before = pair.clone();
    for ticks in [65_536, 65_537, 131_072, u32::MAX] {
        assert_eq!(pair.call(&Call::Run(ticks)), (16, vec![16]));
        assert_eq!(pair, before);
    }
    assert_eq!(pair.run(65_535), 0);
    assert_ne!(pair, before);
}

#[test]
fn a_run_of_none_leaves_what_is_out_of_range() {
    let mut pair = at_mark();
    pair.a = Lent::of_bytes(spoilt());
    let before = pair.clone();
    assert_eq!(pair.call(&Call::Run(0)), (0, vec![0]));
    assert_eq!(pair, before);
}

#[test]
fn the_end_that_is_out_of_range_is_reset_and_no_other() {
    for (unit, other) in [(Unit::A, Unit::B), (Unit::B, Unit::A)] {
        for call in [Call::Run(1), Call::Run(200), Call::Tick] {
            let mut pair = at_mark();
            pair.call(&Call::On(other, ChipCall::Write(0, 0)));
            *pair.end_mut(unit) = Lent::of_bytes(spoilt());
            pair.call(&call);
            // Just reset, but for the ticks since.
            let reset = Lent::InRange(Chip::just_reset());
            assert_eq!(pair.end(unit).untallied(), reset);
            let ticks = if call == Call::Run(200) { 200 } else { 1 };
            let view = pair.end(unit).view();
            assert_eq!((view.transmit_tally, view.receive_tally), (ticks, ticks));
            // Its modes are there, and its frame began.
            let view = pair.end(other).view();
            assert_eq!((view.mode1, view.waiting), (Some(206), false));
        }
    }
}

#[test]
fn the_lines_of_the_driver() {
    let mut bench = Bench::new(Pair::call);
    let mut enter = |line: Line| (line.to_string(), line.answer(&mut bench));
    let lines = [
        (Line::Call(Call::Tick), "tick", "3"),
        (Line::Call(Call::Run(u32::MAX)), "run 4294967295", "16"),
        (
            Line::Call(Call::On(Unit::B, ChipCall::Write(2, 77))),
            "b write 2 77",
            "0",
        ),
        (
            Line::Call(Call::On(Unit::A, ChipCall::Read(4))),
            "a read 4",
            "1 0",
        ),
    ];
    for (line, text, answer) in lines {
        assert_eq!(enter(line), (text.to_string(), answer.to_string()));
    }
    let (text, answer) = enter(Line::Device(Unit::A, [0xab; DEVICE_BYTES]));
    assert_eq!(
        (text, answer),
        (
            format!("a device {}", "ab".repeat(DEVICE_BYTES)),
            "0".to_string()
        )
    );
    let (text, answer) = enter(Line::Bytes);
    assert_eq!((text.as_str(), answer.len()), ("bytes", 4 * DEVICE_BYTES));
    // The padding of a device is not shown; mode 1 of b is.
    assert_eq!((&answer[44..50], &answer[128..130]), ("ab00ab", "4d"));
    assert_eq!(
        (&answer[88..98], &answer[120..128]),
        ("ab000000ab", "abab0000")
    );
}
