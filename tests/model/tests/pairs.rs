//! The random runs of pairs: a right driver is found right, each wrong one wrong, and
//! what the runs reach is counted.

mod wrong_pairs;

use model::calls::{Call as ChipCall, DEVICE_BYTES};
use model::chip::{set_number, set_up, RECEIVE_TALLY, TRANSMIT_TALLY};
use model::driver::{self, text};
use model::generate::pairs::{run, RUNS, WAIT_RUNS};
use model::pair::hearing::in_step;
use model::pair::lines::{Bench, Line, Make};
use model::pair::reach::Reach;
use model::pair::{Call, Pair};
use model::ranges::restated;
use model::session::Unit;
use model::Format;

/// The shortest run that shows a pair to be wrong, if one does.
fn found(make: Make) -> Option<Vec<Line>> {
    driver::found((0..RUNS).map(run), || Bench::new(make))
}

/// The same of the runs of waits.
fn found_by_waits(make: Make) -> Option<Vec<Line>> {
    driver::found((RUNS..RUNS + WAIT_RUNS).map(run), || Bench::new(make))
}

#[test]
fn a_right_pair_is_found_right() {
    assert_eq!(found(Pair::call), None);
    assert_eq!(found_by_waits(Pair::call), None);
}

#[test]
fn each_wrong_pair_is_found() {
    for (name, make) in wrong_pairs::all() {
        let found = found(make).expect(name);
        // At most two ends that are set up, some characters and runs, what shows it.
        assert!(found.len() <= 24, "{name}:\n{}", text(&found));
    }
}

#[test]
fn each_wrong_wait_is_found() {
    for (name, make) in wrong_pairs::all_waits() {
        let found = found_by_waits(make).expect(name);
        assert!(found.len() <= 24, "{name}:\n{}", text(&found));
        let waits = |line: &Line| matches!(line, Line::Call(Call::Wait(..)));
        assert!(found.iter().any(waits), "{name}:\n{}", text(&found));
    }
}

#[test]
fn a_wrong_wait_is_shortened_to_its_calls() {
    for (name, shortest) in [
        ("a limit of 65535 is refused", "wait 0 65535\n"),
        ("a limit of 65536 is taken", "wait 0 65536\n"),
        ("a limit of 0 is refused", "wait 0 0\n"),
        ("a refused wait answers another number", "wait 0 65536\n"),
    ] {
        let all = wrong_pairs::all_waits();
        let wrong = all.iter().find(|(known, _)| *known == name);
        let lines = found_by_waits(wrong.expect("a wrong wait").1).expect(name);
        assert_eq!(text(&lines), shortest);
    }
}

#[test]
fn a_difference_is_shortened_to_its_calls() {
    for (name, shortest) in [
        ("65535 is refused", "run 65535\n"),
        ("65536 is taken", "run 65536\n"),
        ("a length is cut to 16 bits", "run 65536\n"),
        ("a run of 0 is refused", "run 0\n"),
        ("a tick answers one level", "tick\n"),
    ] {
        let all = wrong_pairs::all();
        let wrong = all.iter().find(|(known, _)| *known == name);
        let lines = found(wrong.expect("a wrong pair").1).expect(name);
        assert_eq!(text(&lines), shortest);
    }
}

#[test]
fn each_seed_gives_one_run_and_no_other() {
    assert_eq!(run(7), run(7));
    assert_ne!(run(7), run(8));
}

// What was reached.

/// The counts of a name in what some lines reached.
fn reached(lines: &[Line], name: &str) -> String {
    let mut reach = Reach::of_pairs();
    reach.run(lines);
    let (report, _) = reach.report();
    let begins = format!("{name}: ");
    let mut counts = report.lines().filter_map(|line| line.strip_prefix(&begins));
    let counts = counts.next().unwrap_or_else(|| panic!("no {name}"));
    counts.trim_end_matches(" MISSING").to_string()
}

#[test]
fn what_was_reached_too_seldom_is_missing() {
    let (report, whole) = Reach::of_pairs().report();
    assert!(!whole && report.lines().all(|line| line.ends_with(" MISSING")));
    for (count, note) in [(39, " MISSING"), (40, "")] {
        let mut reach = Reach::of_pairs();
        reach.run(&vec![Line::Call(Call::Tick); count]);
        let line = format!("tick that answers 3: {count}{note}\n");
        assert!(reach.report().0.contains(&line), "{line}");
    }
}

/// A run and a look behind it.
fn shown(ticks: u32) -> [Line; 2] {
    [Line::Call(Call::Run(ticks)), Line::Bytes]
}

#[test]
fn lengths_are_counted_where_the_pair_is_shown() {
    let name = |length: &str| format!("run of {length}, shown");
    let lines = [0, 1, 65_535, 65_536, 65_543, u32::MAX].map(shown).concat();
    for (length, count) in [
        ("0", "1"),
        ("1", "1"),
        ("2 to 999", "0"),
        ("65535", "1"),
        ("65536", "1"),
        ("65537 to 4294967294", "1"),
        ("4294967295", "1"),
        ("a multiple of 65536", "1"),
        ("a multiple of 65536 and 1 to 999", "1"),
    ] {
        assert_eq!(reached(&lines, &name(length)), count, "{length}");
    }
    let unseen = [Line::Call(Call::Run(1)), Line::Call(Call::Tick)];
    assert_eq!(reached(&unseen, &name("1")), "0");
}

#[test]
fn devices_out_of_range_are_counted() {
    let mut spoilt = set_up(77, 0, 5).bytes();
    spoilt[7] = 2;
    for (units, range) in [
        (&[][..], "both in range"),
        (&[Unit::A], "a out of range"),
        (&[Unit::B], "b out of range"),
        (&[Unit::A, Unit::B], "both out of range"),
    ] {
        let devices: Vec<Line> = units
            .iter()
            .map(|unit| Line::Device(*unit, spoilt))
            .collect();
        for (ticks, called) in [(0, "run of 0"), (65_536, "refused run"), (1, "run of more")] {
            let lines = [&devices[..], &shown(ticks)].concat();
            let name = format!("{called} with {range}, shown");
            assert_eq!(reached(&lines, &name), "1", "{name}");
        }
    }
}

/// 8 bits, no parity, a stop bit, 16 ticks a bit: mode 1 is 78.
const FORMAT: Format = Format {
    factor: 16,
    length: 8,
    parity: false,
    even: false,
    stop: 16,
};
const CHARACTER: u8 = 65;

/// An end that is on, with a frame at a place and a receiver that has heard some of
/// the same frame.
fn end(place: u16, heard: usize) -> [u8; DEVICE_BYTES] {
    let mut bytes = set_up(78, 0, 5).bytes();
    bytes[12..18].copy_from_slice(&[CHARACTER, 16, 8, 0, 0, 16]);
    bytes[18..20].copy_from_slice(&place.to_le_bytes());
    bytes[32..43].copy_from_slice(&in_step(&FORMAT, CHARACTER, heard));
    bytes
}

/// The two ends, and a run behind them.
fn lines(a: [u8; DEVICE_BYTES], b: [u8; DEVICE_BYTES], ticks: u32) -> Vec<Line> {
    let devices = [Line::Device(Unit::A, a), Line::Device(Unit::B, b)];
    [devices, shown(ticks)].concat()
}

#[test]
fn what_a_run_ends_beside_is_counted() {
    // The frame from a has 160 ticks, its stop sample is the 153rd; b has none.
    let mut silent = end(1, 1);
    silent[12..20].fill(0);
    let (before, with, behind) = ("one tick before", "with", "one tick behind");
    for (ticks, beside, what) in [
        (158, before, "a frame's last tick"),
        (159, with, "a frame's last tick"),
        (160, behind, "a frame's last tick"),
        (151, before, "a stop sample"),
        (152, with, "a stop sample"),
        (153, behind, "a stop sample"),
        (7, before, "a look within a character"),
        (8, with, "a look within a character"),
    ] {
        let lines = lines(end(1, 0), silent, ticks);
        let name = format!("run that ends {beside} {what}, by way");
        assert_eq!(reached(&lines, &name), "1 0", "{ticks}: {name}");
        let other = format!("run that ends {beside} a start, by way");
        assert_eq!(reached(&lines, &other), "0 0");
    }
}

#[test]
fn where_a_receiver_stands_to_its_frame_is_counted() {
    let nearly = |place: usize, value: u8| {
        let mut bytes = end(50, 60);
        assert_ne!(bytes[place], value);
        bytes[place] = value;
        bytes
    };
    let mut waiting = end(50, 0);
    waiting[32] = 0;
    // The frame from a is at 60, its receiver where the one from b, at 50, puts it.
    for (b, standing, counts) in [
        (end(50, 60), "in step", "1 1"),
        (nearly(33, 3), "in step but for its countdown", "1 0"),
        (nearly(34, 3), "in step but for one bit of its value", "1 0"),
        (
            nearly(42, 32),
            "in step but for the stop of its format",
            "1 0",
        ),
        (
            nearly(39, 7),
            "in step but for the length of its format",
            "1 0",
        ),
        (end(50, 76), "in step but for its look", "1 0"),
        (end(50, 56), "a tick behind", "0 0"),
        (end(50, 0), "searching before the stop sample", "1 0"),
        (waiting, "waiting", "1 0"),
    ] {
        let lines = lines(end(60, 50), b, 1);
        let name = format!("run that begins with a receiver {standing}, by way");
        assert_eq!(reached(&lines, &name), counts, "{name}");
    }
}

#[test]
fn what_a_run_does_is_counted_by_way() {
    let both = lines(end(60, 50), end(50, 60), 120);
    for (name, counts) in [
        ("run with a frame's last tick, by way", "1 1"),
        ("run with a stop sample, by way", "1 1"),
        ("run with an overrun flag, by way", "0 0"),
        ("run with a character heard as it is sent, by way", "1 1"),
        ("run that begins within a frame, by way", "1 1"),
        ("run that ends within a frame, by way", "0 0"),
        ("run that brings one character, by way", "1 1"),
        ("run that brings characters both ways", "1"),
    ] {
        assert_eq!(reached(&both, name), counts, "{name}");
    }
    let name = "run that begins within frames both ways, at different places";
    assert_eq!(reached(&both, name), "1");
}

#[test]
fn a_break_and_its_guard_are_counted_by_way() {
    // A break from b alone, and 8 ticks of the 16 behind it.
    let broken = lines(set_up(78, 0, 5).bytes(), set_up(78, 0, 13).bytes(), 2000);
    let ended = Line::Call(Call::On(Unit::B, ChipCall::Write(3, 5)));
    let lines = [&broken[..], &[ended], &shown(8)].concat();
    let counts = |what: &str| reached(&lines, &format!("run that {what}, by way"));
    assert_eq!(counts("has a break throughout"), "0 1");
    assert_eq!(counts("is long, with a break throughout"), "0 1");
    assert_eq!(counts("is long and at mark throughout"), "1 0");
    assert_eq!(counts("leaves a part of a guard"), "0 1");
    assert_eq!(counts("has the receiver wait at 0 throughout"), "0 1");
    assert_eq!(counts("runs a guard down"), "0 0");
}

// What waits reached.

/// The two ends, and a wait that is shown behind them.
fn wait(a: [u8; DEVICE_BYTES], b: [u8; DEVICE_BYTES], number: u32, limit: u32) -> Vec<Line> {
    let devices = [Line::Device(Unit::A, a), Line::Device(Unit::B, b)];
    let wait = [Line::Call(Call::Wait(number, limit)), Line::Bytes];
    [devices, wait].concat()
}

/// The counts of waits that do something, by the unit that is named.
fn waits_that(lines: &[Line], what: &str) -> String {
    reached(lines, &format!("wait that {what}, by unit"))
}

/// A frame from a whose stop sample is 93 ticks from now, and its receiver at b, which
/// sends none and may hold a character.
fn in_93_ticks(unread: u8) -> [[u8; DEVICE_BYTES]; 2] {
    let (a, mut b) = (end(60, 160), end(1, 60));
    b[12..20].fill(0);
    b[44] = unread;
    [a, restated(b)]
}

#[test]
fn the_endings_of_waits_are_counted_by_unit() {
    for (unread, limit, ending) in [
        (0, 93, "brings a character"),
        (0, 93, "brings a character in the last tick of its limit"),
        (0, 94, "brings a character of a frame under way"),
        (0, 92, "uses up its limit"),
        (0, 92, "uses up its limit a tick before one comes"),
        (0, 0, "has limit 0 with none there"),
        (0, 65_536, "is refused with none there"),
        (1, 9, "finds a character there"),
        (1, 0, "has limit 0 with a character there"),
        (1, u32::MAX, "is refused with a character there"),
    ] {
        let [a, b] = in_93_ticks(unread);
        let counts = |number| waits_that(&wait(a, b, number, limit), ending);
        assert_eq!(counts(1), "0 1", "{limit}: {ending}");
        assert!(counts(0).ends_with(" 0"), "{limit}: {ending}");
    }
    let unseen = [Line::Call(Call::Wait(0, 0)), Line::Call(Call::Tick)];
    assert_eq!(waits_that(&unseen, "has limit 0"), "0 0");
}

#[test]
fn what_waits_end_beside_and_pass_is_counted() {
    let (last, before) = (
        "brings a character in the last tick of its limit",
        "uses up its limit a tick before one comes",
    );
    let (gets, overruns) = (
        "uses up its limit while the other gets one",
        "uses up its limit while the other overruns",
    );
    for (unread, number, limit, what, counts) in [
        (0, 1, 94, last, "0 0"),
        (0, 1, 91, before, "0 0"),
        (0, 0, 93, gets, "1 0"),
        (0, 0, 92, gets, "0 0"),
        (1, 0, 93, overruns, "1 0"),
        (0, 0, 93, overruns, "0 0"),
    ] {
        let [a, b] = in_93_ticks(unread);
        let lines = wait(a, b, number, limit);
        assert_eq!(waits_that(&lines, what), counts, "{limit}: {what}");
    }
}

#[test]
fn when_the_frame_begins_that_is_waited_for_is_counted() {
    let hears = set_up(78, 0, 5).bytes();
    let waiting = |guard: u8| {
        let mut bytes = set_up(78, 0, 5).bytes();
        [bytes[20], bytes[21], bytes[22]] = [CHARACTER, 1, guard];
        restated(bytes)
    };
    for (guard, counts) in [
        (0, ["1 0", "0 0", "0 0", "0 0"]),
        (1, ["0 0", "1 0", "0 0", "1 0"]),
        (15, ["0 0", "1 0", "0 0", "1 0"]),
        (16, ["0 0", "1 0", "1 0", "1 0"]),
    ] {
        let mut searches = hears;
        searches[32] = 1;
        let lines = wait(searches, waiting(guard), 0, 400);
        let names = [
            "that begins at once",
            "that begins later",
            "that begins long after",
        ];
        let names = names.map(|begins| format!("of a frame {begins}"));
        let [at_once, later, long_after] = names;
        let behind = "behind a guard".to_string();
        for (how, count) in [at_once, later, long_after, behind].iter().zip(counts) {
            let what = format!("brings a character {how}");
            assert_eq!(waits_that(&lines, &what), count, "{guard}: {what}");
        }
    }
}

#[test]
fn devices_out_of_range_are_counted_by_the_unit_that_is_named() {
    let whole = set_up(78, 0, 5).bytes();
    let mut out = whole;
    [out[7], out[44]] = [2, 1];
    for (a, b, range, counts) in [
        (whole, whole, "both in range", ["1 0", "0 1"]),
        (out, whole, "its unit out of range", ["1 0", "0 0"]),
        (whole, out, "its unit out of range", ["0 0", "0 1"]),
        (out, whole, "the other out of range", ["0 0", "0 1"]),
        (whole, out, "the other out of range", ["1 0", "0 0"]),
        (out, out, "both out of range", ["1 0", "0 1"]),
    ] {
        for (limit, ending) in [
            (0, "has limit 0"),
            (9, "uses up its limit"),
            (65_536, "is refused"),
        ] {
            let what = format!("{ending} with {range}");
            let counted = [0, 2].map(|number| waits_that(&wait(a, b, number, limit), &what));
            assert_eq!(counted, counts, "{what}");
        }
    }
    let marked = "uses up its limit with its unit out of range and marked unread";
    assert_eq!(waits_that(&wait(out, whole, 0, 9), marked), "1 0");
    assert_eq!(waits_that(&wait(out, whole, 1, 9), marked), "0 0");
}

#[test]
fn numbers_of_units_and_limits_are_counted() {
    let whole = set_up(78, 0, 5).bytes();
    let lines = wait(whole, whole, 256, 65_539);
    for name in [
        "wait on unit 256",
        "wait of limit 65537 to 99998",
        "wait of limit a multiple of 65536 and 1 to 999",
    ] {
        assert_eq!(reached(&lines, name), "1");
    }
    let lines = wait(whole, whole, 257, u32::MAX);
    for name in ["wait on unit of another number", "wait of limit 4294967295"] {
        assert_eq!(reached(&lines, name), "1");
    }
}

#[test]
fn of_what_is_dear_fewer_are_enough() {
    let longest = [Line::Call(Call::Wait(0, 65_535)), Line::Bytes];
    for (count, note) in [(9, " MISSING"), (10, "")] {
        let mut reach = Reach::of_pairs();
        reach.run(&longest.repeat(count));
        let line = format!("wait that uses up 65535: {count}{note}\n");
        assert!(reach.report().0.contains(&line), "{line}");
    }
}

// What runs and waits do to the tallies.

#[test]
fn tallies_that_wrap_are_counted_by_end() {
    let [mut a, mut b] = in_93_ticks(0);
    set_number(&mut a, TRANSMIT_TALLY, u32::MAX - 9);
    set_number(&mut a, RECEIVE_TALLY, 0);
    set_number(&mut b, TRANSMIT_TALLY, 0);
    // Its character comes with the tick before the wrap, or with the first one behind it.
    for (to_wrap, before, behind) in [(94, "0 1", "0 0"), (92, "0 0", "0 1")] {
        set_number(&mut b, RECEIVE_TALLY, u32::MAX - (to_wrap - 1));
        for (call, lines) in [("run", lines(a, b, 100)), ("wait", wait(a, b, 0, 100))] {
            for (what, counts) in [
                ("in which its transmit tally wraps", "1 0"),
                ("in which its receive tally wraps", "0 1"),
                ("that stamps a character", "0 1"),
                ("that stamps a character before the wrap", before),
                ("that stamps a character behind the wrap", behind),
                ("that stamps a start behind the wrap", "0 0"),
            ] {
                let name = format!("{call} {what}, by end");
                assert_eq!(reached(&lines, &name), counts, "{to_wrap}: {name}");
            }
        }
    }
    set_number(&mut a, TRANSMIT_TALLY, u32::MAX);
    for (ticks, called) in [(0, "run of 0"), (65_536, "refused run")] {
        let name = format!("{called} with a tally at 4294967295, by end");
        assert_eq!(reached(&lines(a, b, ticks), &name), "1 0");
    }
}
