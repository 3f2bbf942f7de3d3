//! The random runs of boards: a right driver is found right, each wrong one wrong,
//! and what the runs reach is counted.

mod wrong_boards;

use model::board::lines::{Bench, Line, Make, Side};
use model::board::reach::Reach;
use model::board::{Board, Call};
use model::chip::{set_number, set_up, RECEIVE_TALLY, TRANSMIT_TALLY};
use model::driver::{self, difference, text};
use model::generate::boards::{run, RUNS};
use model::ranges::restated;

fn output(make: Make, lines: &[Line]) -> String {
    driver::output(Bench::new(make), lines)
}

/// The shortest run that shows a wrong board, from the first run that does.
fn found(name: &str, make: Make) -> Vec<Line> {
    let found = driver::found((0..RUNS).map(run), || Bench::new(make));
    found.unwrap_or_else(|| panic!("not found: {name}"))
}

#[test]
fn a_right_board_is_found_right() {
    for lines in (0..RUNS).step_by(7).map(run) {
        assert_eq!(difference(&lines, &output(Side::call, &lines)), None);
    }
}

#[test]
fn answers_too_few_or_too_many_are_found() {
    let lines = run(0);
    let output = output(Side::call, &lines);
    let without = output.trim_end().rsplit_once('\n').unwrap().0;
    assert_eq!(difference(&lines, without).unwrap().line, lines.len() - 1);
    let more = difference(&lines, &(output + "0\n")).unwrap();
    assert_eq!(more.line, lines.len());
}

#[test]
fn each_wrong_board_is_found() {
    for (name, make) in wrong_boards::all() {
        let found = found(name, make);
        // At most a board, a channel that is set up, a character, and what shows it.
        assert!(found.len() <= 16, "{name}:\n{}", text(&found));
    }
}

#[test]
fn a_difference_is_shortened_to_its_calls() {
    let shown = |name: &str| {
        let all = wrong_boards::all();
        let wrong = all.iter().find(|(known, _)| *known == name);
        found(name, wrong.expect("a wrong board").1)
    };
    let lines = shown("a written select is stored whole");
    assert_eq!(text(&lines), "out 7 32\nfields\n");
    let lines = shown("a reset leaves the transmit mask");
    assert_eq!(text(&lines), "out 4 1\nreset\nfields\n");
    let lines = shown("a mask refused with 9 is stored");
    assert_eq!(text(&lines), "board 0 8 0 0\nout 4 1\nfields\n");
    let lines = shown("a board 4 is selected by 0");
    assert_eq!(lines.len(), 2);
    assert_eq!(lines[0], Line::Set(Board::numbered(4)));
    let lines = shown("pins refused with 2 settle their channel");
    assert_eq!(lines.len(), 3);
    assert!(matches!(
        lines[1],
        Line::Call(Call::Pins(_, [0, 0, 2] | [0, 2, 0] | [2, 0, 0]))
    ));
    assert!(matches!(lines[2], Line::Bytes(_)));
}

#[test]
fn each_seed_gives_one_run_and_no_other() {
    assert_eq!(run(7), run(7));
    assert_ne!(run(7), run(8));
}

// What was reached.

/// The line of a name in what some lines reached.
fn reached(lines: &[Line], name: &str) -> String {
    let mut reach = Reach::of_boards();
    reach.run(lines);
    let (report, _) = reach.report();
    let mut lines = report.lines();
    let line = lines.find(|line| line.starts_with(&format!("{name}: ")));
    line.unwrap_or_else(|| panic!("no {name}")).to_string()
}

#[test]
fn what_was_reached_too_seldom_is_missing() {
    let (report, whole) = Reach::of_boards().report();
    assert!(!whole && report.lines().all(|line| line.ends_with(" MISSING")));
    let lines = |count| vec![Line::Call(Call::In(6)); count];
    let name = "port 6 read";
    assert_eq!(reached(&lines(39), name), "port 6 read: 39 MISSING");
    assert_eq!(reached(&lines(40), name), "port 6 read: 40");
}

#[test]
fn refusals_that_stand_together_are_counted() {
    let other = Board {
        select: 8,
        ..Board::numbered(0)
    };
    let lines = [
        Line::Set(other),
        Line::Count(7),
        Line::Call(Call::Out(3, 64)),
        Line::Count(8),
        Line::Call(Call::Out(3, 64)),
        Line::Call(Call::Receive(8, 2)),
    ];
    for name in ["10 before 9", "10 before 5", "9 before 5", "8 before 2"] {
        assert_eq!(reached(&lines, name), format!("{name}: 1 MISSING"));
    }
    let name = "out refused with 9";
    assert_eq!(reached(&lines, name), format!("{name}: 1 MISSING"));
}

/// The lines of a board that is not selected.
fn unselected(calls: &[Line]) -> Vec<Line> {
    let other = Board {
        select: 8,
        transmit_mask: 5,
        ..Board::numbered(0)
    };
    [&[Line::Set(other)], calls].concat()
}

#[test]
fn a_board_that_a_refused_call_would_have_changed_is_counted() {
    let name = "board that a write of port 4 would have changed, shown after refusal 9";
    let write = |value| Line::Call(Call::Out(4, value));
    let counted =
        |calls: &[Line]| reached(&unselected(calls), name) == format!("{name}: 1 MISSING");
    assert!(counted(&[write(6), Line::Bytes(0), Line::Fields]));
    // The mask that it has, a board set since, and another board.
    assert!(!counted(&[write(5), Line::Fields]));
    assert!(!counted(&[
        write(6),
        Line::Set(Board::numbered(0)),
        Line::Fields
    ]));
    assert!(!counted(&[write(6), Line::Use(1), Line::Fields]));
}

#[test]
fn a_channel_that_a_refused_call_would_have_changed_is_counted() {
    let name = |range: &str, port: u8| {
        let call = format!("a read of port {port} would have changed, shown after refusal 9");
        format!("channel {range} that {call}")
    };
    let mut bytes = set_up(77, 0, 5).bytes();
    // A character is unread; then the mode pointer is none.
    bytes[44] = 1;
    let mut bytes = restated(bytes);
    let whole = Line::Device(0, bytes);
    bytes[7] = 2;
    let spoilt = Line::Device(0, bytes);
    let empty = Line::Device(0, set_up(77, 0, 5).bytes());
    for (device, place, port, range, count) in [
        (whole, 0, 0, "in range", 1),
        (whole, 0, 2, "in range", 1),
        (whole, 1, 0, "in range", 0),
        (empty, 0, 0, "in range", 0),
        (whole, 0, 0, "out of range", 0),
        (spoilt, 0, 0, "out of range", 1),
        (spoilt, 0, 0, "in range", 0),
    ] {
        let lines = unselected(&[device, Line::Call(Call::In(port)), Line::Bytes(place)]);
        let name = name(range, port);
        assert_eq!(reached(&lines, &name), format!("{name}: {count} MISSING"));
    }
}

#[test]
fn a_value_that_a_refused_call_keeps_back_is_counted() {
    for (port, count) in [(3, 1), (0, 0)] {
        let command = Line::Device(0, set_up(77, 0, 5).bytes());
        let lines = unselected(&[command, Line::Call(Call::In(port))]);
        let name = format!("a read of port {port} that would have given another value than 0");
        let name = format!("{name}, refused with 9");
        assert_eq!(reached(&lines, &name), format!("{name}: {count} MISSING"));
    }
}

#[test]
fn a_select_with_bits_that_do_not_count_is_counted_where_it_is_shown() {
    let high = Board {
        select: 40,
        ..Board::numbered(0)
    };
    let lines = |call| [Line::Set(high), Line::Call(call), Line::Fields];
    let name = |call: &str| format!("stored select with bits 7-5 shown after {call}");
    for (call, name, count) in [
        (Call::Transmit(0), name("transmit done"), 1),
        (Call::Transmit(8), name("transmit refused"), 1),
        (Call::Transmit(8), name("transmit done"), 0),
        (Call::Out(7, 40), name("out done"), 0),
    ] {
        assert_eq!(
            reached(&lines(call), &name),
            format!("{name}: {count} MISSING")
        );
    }
}

/// Channels 3 and 5 ready to send, channel 6 with a change of its pins and channel 7
/// out of range, ready to send by its own bits; channels 5 and 7 enabled.
fn polled() -> Vec<Line> {
    let (ready, changed) = (set_up(77, 0, 1), set_up(77, 0, 0));
    assert_eq!((ready.peek() & 7, changed.peek() & 7), (5, 4));
    let mut spoilt = ready.bytes();
    spoilt[7] = 2;
    let enabled = Board {
        transmit_mask: 0b1010_0000,
        ..Board::numbered(0)
    };
    vec![
        Line::Device(3, ready.bytes()),
        Line::Device(5, ready.bytes()),
        Line::Device(6, changed.bytes()),
        Line::Device(7, spoilt),
        Line::Set(enabled),
        Line::Call(Call::In(4)),
        Line::Call(Call::Interrupts),
    ]
}

#[test]
fn interrupts_are_counted_channel_by_channel() {
    let out_of_range = "for bytes out of range that have the bit";
    for (name, counts) in [
        ("port 4 read with a 1", "0 0 0 1 0 1 0 0"),
        ("port 4 read with a 0 beside a 1", "1 1 1 0 1 0 1 1"),
        ("port 4 read with a masked 1", "0 0 0 1 0 0 0 0"),
        ("port 4 read with a 0 at status bit 2", "0 0 0 0 0 0 1 0"),
        (
            &format!("port 4 read with a 0 {out_of_range}"),
            "0 0 0 0 0 0 0 1",
        ),
        ("port 5 read with a 1", "0 0 0 0 0 0 0 0"),
        ("transmit line asserted", "0 0 0 0 0 1 0 0"),
        (
            "transmit line not asserted beside one that is",
            "1 1 1 1 1 0 1 1",
        ),
        ("transmit line pending and masked", "0 0 0 1 0 0 0 0"),
        ("transmit line enabled and not pending", "0 0 0 0 0 0 0 1"),
        (
            &format!("transmit line enabled and not pending {out_of_range}"),
            "0 0 0 0 0 0 0 1",
        ),
        ("receive line pending and masked", "0 0 0 0 0 0 0 0"),
    ] {
        let name = format!("{name}, by channel");
        assert_eq!(
            reached(&polled(), &name),
            format!("{name}: {counts} MISSING")
        );
    }
}

#[test]
fn an_arrival_on_a_line_is_counted() {
    // 8 bits, no parity, a factor of 1; a character waits at the near end.
    let mut chip = set_up(77, 0, 5);
    let far_end = chip.bytes();
    chip.write(0, 65);
    for (board, name) in [(0, "one board"), (1, "two boards")] {
        let mut lines = vec![Line::Device(5, chip.bytes()), Line::Use(board)];
        lines.push(Line::Device(3, far_end));
        let mut tick = |level| {
            let calls = [
                Line::Use(0),
                Line::Call(Call::Transmit(5)),
                Line::Use(board),
                Line::Call(Call::Transmit(3)),
                Line::Call(Call::Receive(3, level)),
                Line::Use(0),
                Line::Call(Call::Receive(5, 1)),
            ];
            lines.extend(calls);
        };
        // The far end has its mark too late for the start, and finds it in the 1 of bit 0.
        for level in [0, 1, 0, 0, 0, 0, 0, 1, 0, 1].into_iter().chain([1; 10]) {
            tick(level);
        }
        let name = format!("arrival on a line of {name}");
        assert_eq!(reached(&lines, &name), format!("{name}: 1 MISSING"));
        assert_eq!(
            reached(&lines, "arrival on channel"),
            "arrival on channel: 0 0 0 1 0 0 0 0 MISSING"
        );
    }
}

#[test]
fn tallies_of_channels_that_are_shown_are_counted() {
    // Channel 2 has a character to send, and both its tallies wrap with the next tick.
    let mut chip = set_up(77, 0, 1);
    chip.write(0, 65);
    let mut bytes = chip.bytes();
    set_number(&mut bytes, TRANSMIT_TALLY, u32::MAX);
    set_number(&mut bytes, RECEIVE_TALLY, u32::MAX);
    let refused = |call: &str| format!("channel with a tally at 4294967295 shown behind {call}");
    for (call, name) in [
        (
            Call::Transmit(2),
            "channel shown whose transmit tally wrapped".to_string(),
        ),
        (
            Call::Transmit(2),
            "channel shown whose frame's start was stamped".to_string(),
        ),
        (
            Call::Receive(2, 0),
            "channel shown whose receive tally wrapped".to_string(),
        ),
        (
            Call::Receive(2, 0),
            "channel shown behind a receive tick that is not heard".to_string(),
        ),
        (Call::Receive(2, 2), refused("receive refused with 2")),
        (Call::Transmit(10), refused("transmit refused with 8")),
    ] {
        let lines = |shown| [Line::Device(2, bytes), Line::Call(call), Line::Bytes(shown)];
        assert_eq!(reached(&lines(2), &name), format!("{name}: 1 MISSING"));
        assert_eq!(reached(&lines(3), &name), format!("{name}: 0 MISSING"));
    }
}
