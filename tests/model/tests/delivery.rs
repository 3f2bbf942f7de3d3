//! Demand 3 as it is judged from a session and its answer alone: answers written
//! by hand, and wrong benches whose own answers show it.

mod wrong_waits;

use model::chip::{joined_ticks, Chip};
use model::delivery::judge;
use model::generate::{senders, session, Kind, SESSIONS};
use model::session::{act_wait, answer, answer_on, Bench, Pair, Record, Unit, UNITS};

/// Both units set up as in the worked session, then one joined tick: nine lines.
/// L is 176 and D is 152.
const SET_UP: &str = "W A 2 206; W A 2 126; W A 3 39; W B 2 206; W B 2 126; W B 3 39; \
    P A 0 0 0; P B 0 0 0; L 1; ";

/// The document's way of writing sessions, made the text itself: tabs are shown
/// as spaces, and records are parted by semicolons.
fn text(records: &str) -> Vec<u8> {
    (records.replace("; ", "\n").replace(' ', "\t") + "\n").into_bytes()
}

fn judged(input: &str, output: &str, senders: &[Unit]) -> Result<Vec<&'static str>, String> {
    judge(&text(input), &text(output), senders)
}

/// The output is right, for the model too, and it is not where one of its values is
/// changed as said.
fn is_right_but_not_with(input: &str, output: &str, changes: &[(&str, &str)]) {
    assert_eq!(answer(&text(input)), text(output));
    assert_eq!(judged(input, output, &UNITS).err(), None);
    for (right, wrong) in changes {
        let changed = output.replacen(right, wrong, 1);
        assert_ne!(changed, output);
        assert!(judged(input, &changed, &UNITS).is_err(), "{changed}");
    }
}

/// The session does not keep the premises, whatever the right answer to it is.
fn is_not_for_judging(input: &str, why: &str) {
    let input = text(input);
    let fault = judge(&input, &answer(&input), &UNITS).unwrap_err();
    assert!(fault.contains(why), "{fault}");
}

// Answers written by hand, which the model gives too.

#[test]
fn the_worked_session() {
    let input = SET_UP.to_string() + "W A 0 255; L 152; R B 1; L 1; R B 1; R B 0; R B 1";
    let output = "R B 1 197; R B 1 195; R B 0 255 154; R B 1 193; N 16 0";
    let changes = [
        // A tick early, a tick late, another character, and one that stays unread.
        ("197", "199"),
        ("195", "193"),
        ("255", "254"),
        // The stamp of the tick before, of one behind, of the start, none, and of a read
        // that has none.
        ("255 154", "255 153"),
        ("255 154", "255 155"),
        ("255 154", "255 2"),
        ("255 154", "255 0"),
        ("255 154", "255"),
        ("197", "197 0"),
        ("1 193", "1 195"),
        // The flags.
        ("195", "203"),
        ("195", "211"),
        ("195", "227"),
        // Permission, DSR and DCD at the end that receives.
        ("197", "196"),
        ("197", "69"),
        ("197", "133"),
        // Lines too few, too many and of another read, and other counts.
        ("R B 1 197; ", ""),
        ("N 16 0", "R B 1 193; N 16 0"),
        ("R B 0 255", "R A 0 255"),
        ("R B 1 197", "E 12 6"),
        ("N 16 0", "N 16 1"),
        ("N 16 0", "N 15 0"),
        ("; N 16 0", ""),
    ];
    is_right_but_not_with(&input, output, &changes);
}

#[test]
fn the_empty_and_change_mark_are_not_judged() {
    let input = SET_UP.to_string() + "R B 1; R B 1";
    assert!(judged(&input, "R B 1 197; R B 1 193; N 11 0", &UNITS).is_ok());
    assert!(judged(&input, "R B 1 193; R B 1 197; N 11 0", &UNITS).is_ok());
}

#[test]
fn permission_comes_with_the_first_tick_of_the_frame_that_waited() {
    let input = SET_UP.to_string()
        + "R A 1; W A 0 1; R A 1; L 1; R A 1; W A 0 2; R A 1; L 152; R B 0; L 23; R A 1; L 1; \
           R A 1; L 151; R B 1; L 1; R B 1; R B 0; R B 0";
    let output = "R A 1 197; R A 1 192; R A 1 193; R A 1 192; R B 0 1 154; R A 1 192; \
        R A 1 193; R B 1 197; R B 1 195; R B 0 2 330; R B 0 2 330; N 28 0";
    let changes = [
        // Never, at once, not with the first tick, and too early behind another.
        ("A 1 197", "A 1 196"),
        ("A 1 192", "A 1 193"),
        ("A 1 193", "A 1 192"),
        (
            "R B 0 1 154; R A 1 192; R A 1 193",
            "R B 0 1 154; R A 1 193; R A 1 193",
        ),
        (
            "R B 0 1 154; R A 1 192; R A 1 193",
            "R B 0 1 154; R A 1 192; R A 1 192",
        ),
        // The second one comes L after the first, and is given again when read.
        ("R B 1 197", "R B 1 199"),
        ("R B 1 195", "R B 1 193"),
        ("R B 0 2 330; R B 0 2", "R B 0 2 330; R B 0 0"),
        // So is its stamp, which is not that of the first.
        ("B 0 2 330; N", "B 0 2 0; N"),
        ("B 0 2 330; N", "B 0 2 154; N"),
    ];
    is_right_but_not_with(&input, output, &changes);
    let reached = judged(&input, output, &UNITS).unwrap();
    for name in [
        "no permission a tick before",
        "permission at its tick",
        "character behind another",
        "no arrival a tick before",
        "arrival at its tick",
    ] {
        assert!(reached.contains(&name), "{name}");
    }
}

#[test]
fn a_set_up_in_another_order() {
    // Pins before modes, a mode and a command that are replaced, a reset of B in
    // the middle. 93 is 8 bits, odd, 1 stop and a factor of 1: D is 10.
    let input = "P A 0 0 0; W B 3 64; W B 2 206; P B 0 2 0; W A 1 7; Z B; R B 2; W A 2 77; \
        R B 3; W B 2 93; x; R A 3; W A 2 61; W A 2 93; W A 2 2; W A 4 0; W B 3 8; P B 0 0 0; \
        W B 3 5; W B 2 1; W A 3 21; R A 3; L 1; W B 0 129; L 10; R A 1; L 1; R A 1; R A 0";
    let output = "E 2 5; E 4 2; R B 2 0; R B 3 0; E 11 6; R A 3 0; E 13 3; E 16 1; R A 3 5; \
        R A 1 197; R A 1 195; R A 0 129 12; N 29 5";
    let changes = [
        // A mode that the reset left, a command's bit 4, and refusals.
        ("R B 2 0", "R B 2 206"),
        ("R A 3 5", "R A 3 21"),
        ("E 2 5; ", ""),
        ("E 13 3", "E 13 4"),
        ("E 16 1", "E 17 1"),
        ("A 1 195", "A 1 193"),
        ("A 0 129", "A 0 1"),
    ];
    is_right_but_not_with(input, output, &changes);
    let reached = judged(input, output, &UNITS).unwrap();
    for name in [
        "set-up mixed between units",
        "reset in the middle of a set-up",
        "mode 1 replaced in a set-up",
        "mode pointer put back in a set-up",
        "command replaced in a set-up",
        "pins before modes in a set-up",
        "SYN write in a set-up",
        "refusal 5 in a set-up",
    ] {
        assert!(reached.contains(&name), "{name}");
    }
}

#[test]
fn a_set_up_of_two_devices_that_did_something() {
    let early = SET_UP.to_string() + "W A 0 0; W B 0 0; L 100; ";
    let again = "Z A; Z B; ".to_string() + SET_UP;
    let input = early.clone() + &again + "R A 1; R B 1; L 200; R B 0; R A 1; W A 0 3; L 153; R B 0";
    let output = "R A 1 197; R B 1 197; R B 0 0 0; R A 1 193; R B 0 3 354; N 31 0";
    is_right_but_not_with(
        &input,
        output,
        &[
            ("A 1 197", "A 1 199"),
            ("B 0 0", "B 0 1"),
            // A stamp that counts the ticks before the reset.
            ("354", "455"),
        ],
    );
    let reached = judged(&input, output, &UNITS).unwrap();
    assert!(reached.contains(&"set-up after ticks or characters"));
    is_not_for_judging(&(early + &again.replace("Z B; ", "")), "freshly");
}

#[test]
fn one_way_does_not_rest_on_the_other() {
    // 8 bits, 1 stop and a factor of 1: L is 10 and D is 9. B's second character
    // overruns at A, then each end loses what only the way from B needs.
    let input = SET_UP.replace("206", "77").replace("126", "0")
        + "W B 0 1; L 1; W B 0 2; L 19; R A 1; P A 1 1 0; W A 3 1; P B 1 0 1; W B 3 4; \
           W A 0 65; L 9; R B 1; L 1; R B 1; R B 0";
    let output = "R A 1 215; R B 1 68; R B 1 66; R B 0 65 31; N 24 0";
    assert_eq!(answer(&text(&input)), text(output));
    let from = |unit, output: &str| judged(&input, output, &[unit]);
    let reached = from(Unit::A, output).unwrap();
    for name in [
        "overrun on the other way",
        "arrival with receive off at the sender",
        "arrival with DCD high at the sender",
        "arrival with DSR high at the sender",
        "arrival with transmit off at the receiver",
        "arrival with CTS high at the receiver",
        "arrival with DSR high at the receiver",
    ] {
        assert!(reached.contains(&name), "{name}");
    }
    // Flags and characters at A are the other way's.
    assert!(from(Unit::A, &output.replace("215", "253")).is_ok());
    for (right, wrong) in [
        ("215", "214"),
        ("68", "70"),
        ("66", "64"),
        ("66", "82"),
        ("31", "30"),
    ] {
        assert!(from(Unit::A, &output.replace(right, wrong)).is_err());
    }
    assert!(from(Unit::B, output).is_err());
    assert!(judged(&input, output, &UNITS).is_err());
}

/// Waits behind the set-up, and their answers. L+D is 328; on an idle sender a wait takes
/// 1+D, behind another frame L.
const WAITS: &str = "B B 0; W A 0 1; B B 328; R B 1; B B 328; R B 0; B B 10; L 13; W A 0 2; L 1; \
    W A 0 3; B B 65535; R B 0; B B 175; B B 1; R B 0; B B 65536; B A 40";
const WAITED: &str = "B B 0; B B 153; R B 1 199; B B 0; R B 0 1 154; B B 10; B B 152; \
    R B 0 2 330; B B 175; B B 1; R B 0 3 506; E 26 21; B A 40; N 27 1";

#[test]
fn a_wait_ends_with_the_first_character_within_its_limit() {
    let changes = [
        // A tick early and a tick late, a wait with a character there, limits.
        ("B B 153", "B B 152"),
        ("B B 153", "B B 154"),
        ("B B 153", "B B 328"),
        ("199; B B 0", "199; B B 1"),
        ("B B 10", "B B 9"),
        ("B B 10", "B B 11"),
        ("B B 152", "B B 151"),
        ("B B 175", "B B 174"),
        ("B B 1;", "B B 0;"),
        ("B B 1;", "B B 2;"),
        ("B A 40", "B A 39"),
        // Another unit, no answer, no refusal, another one.
        ("B B 153", "B A 153"),
        ("B B 153; ", ""),
        ("E 26 21", "B B 0"),
        ("E 26 21", "E 26 6"),
        ("N 27 1", "N 27 0"),
    ];
    is_right_but_not_with(&(SET_UP.to_string() + WAITS), WAITED, &changes);
}

#[test]
fn what_waits_reach_on_a_way_is_told() {
    let reached = judged(&(SET_UP.to_string() + WAITS), WAITED, &UNITS).unwrap();
    for name in [
        "wait on a way, limit 0",
        "wait on a way with a character there",
        "wait on a way with nothing to come",
        "wait on a way for a character to come, limit L+D",
        "wait on a way for a character to come, limit above L+D",
        "wait on a way for a frame that starts with its first tick",
        "wait on a way that brings a character with its last tick",
        "wait on a way that ends a tick before a character",
        "wait on a way at the end that sends",
    ] {
        assert!(reached.contains(&name), "{name}");
    }
}

#[test]
fn a_wait_may_be_the_one_joined_tick_of_a_set_up() {
    let by_wait = SET_UP.replace("L 1; ", "B A 1; ") + "W A 0 1; B B 328; R B 0";
    is_right_but_not_with(
        &by_wait,
        "B A 1; B B 153; R B 0 1 154; N 12 0",
        &[("B A 1", "B A 0"), ("153", "152"), ("R B 0 1", "R B 0 0")],
    );
    // One that is refused or has limit 0 is no tick.
    let none = SET_UP.replace("L 1; ", "B A 0; B B 99999; L 1; ") + "W A 0 1; B B 328; R B 0";
    is_right_but_not_with(
        &none,
        "B A 0; E 10 21; B B 153; R B 0 1 154; N 14 1",
        &[("B A 0; ", ""), ("E 10 21; ", "")],
    );
}

#[test]
fn a_wait_is_no_reason_to_read_late() {
    let late = SET_UP.to_string() + "W B 0 1; L 153; ";
    let in_time = late.clone() + "B B 175; R A 0";
    is_right_but_not_with(&in_time, "B B 175; R A 0 1 154; N 13 0", &[("175", "174")]);
    is_not_for_judging(&(late + "B B 176; R A 0"), "before a read");
}

#[test]
fn the_premises_are_asked_for() {
    is_not_for_judging("R A 1", "freshly");
    is_not_for_judging("L 1", "is not set up");
    for (right, wrong) in [
        // Another length, parity and factor at one end; break, transmit off,
        // receive off, CTS high, DCD high.
        ("A 2 206", "A 2 202"),
        ("A 2 206", "A 2 222"),
        ("A 2 126", "A 2 110; W B 2 207"),
        ("A 3 39", "A 3 47"),
        ("A 3 39", "A 3 38"),
        ("B 3 39", "B 3 35"),
        ("P A 0 0 0", "P A 0 0 1"),
        ("P B 0 0 0", "P B 0 1 0"),
    ] {
        is_not_for_judging(&SET_UP.replacen(right, wrong, 1), "is not set up");
    }
    is_not_for_judging(&SET_UP.replace("L 1", "W A 0 1; L 1"), "freshly");
    let after = |calls: &str, why| is_not_for_judging(&(SET_UP.to_string() + calls), why);
    after("Z A; L 1", "freshly");
    after("W A 0 1; W A 0 2", "not allowed");
    after("W A 2 206", "not allowed");
    after("W A 3 47", "closes the way");
    after("P B 0 1 0", "closes the way");
    after("W A 0 1; L 328", "not all is read");
    after("W A 0 1; L 329; R B 0", "before a read");
}

// Wrong benches, each found by its own answers alone.

/// What a wrong bench does with a record; joined ticks come one by one.
type Fault = fn(&mut Wrong, Record) -> Result<String, u8>;

struct Wrong {
    pair: Pair,
    /// Both units before the latest joined tick, and a mark that a fault may keep
    /// for each.
    before: [Chip; 2],
    marked: [bool; 2],
    fault: Fault,
}

impl Bench for Wrong {
    fn act(&mut self, record: Record) -> Result<String, u8> {
        let count = match record {
            Record::JoinedTicks(count) => count,
            Record::Wait(unit, limit) => return act_wait(self, |wrong| &wrong.pair, unit, limit),
            _ => return (self.fault)(self, record),
        };
        for _ in 0..count {
            self.before = [self.pair.a.clone(), self.pair.b.clone()];
            (self.fault)(self, Record::JoinedTicks(1))?;
        }
        Ok(String::new())
    }
}

impl Wrong {
    /// The status of `unit` is read as `change` gives it.
    fn read_status(&mut self, unit: Unit, change: impl Fn(u8) -> u8) -> Result<String, u8> {
        let status = change(self.pair.chip(unit).read(1).1);
        Ok(format!("R\t{unit:?}\t1\t{status}\n"))
    }

    /// One joined tick, in which CTS is high at each unit that `stops` names.
    fn tick_stopping(&mut self, stops: fn(&Chip) -> bool) -> Result<String, u8> {
        let stopped = UNITS.map(|unit| stops(self.pair.chip(unit)));
        let pins = UNITS.map(|unit| self.pair.chip(unit).view().pins);
        let units = || UNITS.into_iter().filter(|unit| stopped[*unit as usize]);
        for unit in units() {
            let [dsr, dcd, _] = pins[unit as usize];
            self.pair.chip(unit).set_pins(dsr, dcd, 1);
        }
        joined_ticks(&mut self.pair.a, &mut self.pair.b, 1);
        for unit in units() {
            let [dsr, dcd, cts] = pins[unit as usize];
            self.pair.chip(unit).set_pins(dsr, dcd, cts);
        }
        Ok(String::new())
    }
}

fn permission_a_tick_early(bench: &mut Wrong, record: Record) -> Result<String, u8> {
    let Record::Read(unit, 1) = record else {
        return bench.pair.act(record);
    };
    let mut next = bench.pair.chip(unit).clone();
    next.transmit();
    bench.read_status(unit, |status| status | next.view().status & 1)
}

fn permission_once_only(bench: &mut Wrong, record: Record) -> Result<String, u8> {
    match record {
        Record::Write(unit, 0, _) => bench.marked[unit as usize] = true,
        Record::Reset(unit) => bench.marked[unit as usize] = false,
        Record::Read(unit, 1) if bench.marked[unit as usize] => {
            return bench.read_status(unit, |status| status & !1);
        }
        _ => {}
    }
    bench.pair.act(record)
}

fn arrival_a_tick_late(bench: &mut Wrong, record: Record) -> Result<String, u8> {
    let Record::Read(unit, 1) = record else {
        return bench.pair.act(record);
    };
    let before = bench.before[unit as usize].view().status;
    bench.read_status(unit, |status| status & (before | !2))
}

/// A command that leaves receive off drops the character under way ("Receiving").
fn drop_character(chip: &mut Chip) {
    let command = chip.view().command;
    chip.write(3, command & !4);
    chip.write(3, command);
}

fn last_sample_missed(bench: &mut Wrong, record: Record) -> Result<String, u8> {
    if let Record::JoinedTicks(_) = record {
        for unit in UNITS {
            let chip = bench.pair.chip(unit);
            let hearing = chip.view().hearing;
            if hearing.is_some_and(|(format, heard)| heard == format.stop_sample() as usize) {
                drop_character(chip);
            }
        }
    }
    bench.pair.act(record)
}

fn dsr_stops_receiving(bench: &mut Wrong, record: Record) -> Result<String, u8> {
    if let Record::JoinedTicks(_) = record {
        for unit in UNITS {
            let chip = bench.pair.chip(unit);
            if chip.view().pins[0] == 1 {
                drop_character(chip);
            }
        }
    }
    bench.pair.act(record)
}

fn overrun_stops_sending(bench: &mut Wrong, record: Record) -> Result<String, u8> {
    match record {
        Record::JoinedTicks(_) => bench.tick_stopping(|chip| chip.view().status & 16 != 0),
        _ => bench.pair.act(record),
    }
}

fn receive_off_stops_sending(bench: &mut Wrong, record: Record) -> Result<String, u8> {
    match record {
        Record::JoinedTicks(_) => bench.tick_stopping(|chip| chip.view().command & 4 == 0),
        _ => bench.pair.act(record),
    }
}

fn syn_write_moves_the_mode_pointer(bench: &mut Wrong, record: Record) -> Result<String, u8> {
    if let Record::Write(unit, 1, _) = record {
        bench.pair.chip(unit).read(2);
    }
    bench.pair.act(record)
}

fn refused_command_is_taken_in_part(bench: &mut Wrong, record: Record) -> Result<String, u8> {
    if let Record::Write(unit, 3, value @ 64..) = record {
        bench.pair.chip(unit).write(3, value & 63);
    }
    bench.pair.act(record)
}

fn second_command_only_adds(bench: &mut Wrong, record: Record) -> Result<String, u8> {
    match record {
        Record::Write(unit, 3, value) => {
            let command = bench.pair.chip(unit).view().command;
            bench.pair.act(Record::Write(unit, 3, value | command))
        }
        _ => bench.pair.act(record),
    }
}

fn reset_keeps_mode_1(bench: &mut Wrong, record: Record) -> Result<String, u8> {
    let Record::Reset(unit) = record else {
        return bench.pair.act(record);
    };
    let chip = bench.pair.chip(unit);
    let mode1 = chip.view().mode1;
    chip.reset();
    if let Some(mode1) = mode1 {
        chip.write(2, mode1);
        chip.read(3);
    }
    Ok(String::new())
}

fn reset_keeps_what_is_unread(bench: &mut Wrong, record: Record) -> Result<String, u8> {
    match record {
        Record::Reset(unit) => {
            bench.marked[unit as usize] = bench.pair.chip(unit).view().status & 2 != 0;
        }
        Record::Read(unit, 0) => bench.marked[unit as usize] = false,
        Record::Read(unit, 1) if bench.marked[unit as usize] => {
            return bench.read_status(unit, |status| status | 2);
        }
        _ => {}
    }
    bench.pair.act(record)
}

fn wrong_answer(fault: Fault, input: &[u8]) -> Vec<u8> {
    let pair = Pair::just_reset();
    let before = [Chip::just_reset(), Chip::just_reset()];
    let mut wrong = Wrong {
        pair,
        before,
        marked: [false; 2],
        fault,
    };
    answer_on(&mut wrong, input)
}

/// Whether a session of `kind` shows the fault.
fn is_found(kind: Kind, fault: Fault) -> bool {
    is_seen(kind, |input| wrong_answer(fault, input))
}

/// Whether one shows by its answers alone that they are wrong.
fn is_seen(kind: Kind, wrong: impl Fn(&[u8]) -> Vec<u8>) -> bool {
    (0..SESSIONS).any(|index| {
        let input = session(kind, index);
        judge(&input, &wrong(&input), &senders(kind, index)).is_err()
    })
}

#[test]
fn every_right_answer_meets_demand_3() {
    for kind in [Kind::Alike, Kind::OneWay] {
        for index in 0..SESSIONS {
            let input = session(kind, index);
            let fault = judge(&input, &answer(&input), &senders(kind, index)).err();
            assert_eq!(fault, None, "{kind:?} session of seed {index}");
        }
    }
}

#[test]
fn wrong_benches_are_found_both_ways_and_one_way() {
    for kind in [Kind::Alike, Kind::OneWay] {
        assert!(is_found(kind, permission_a_tick_early));
        assert!(is_found(kind, permission_once_only));
        assert!(is_found(kind, arrival_a_tick_late));
        assert!(is_found(kind, last_sample_missed));
        assert!(is_found(kind, syn_write_moves_the_mode_pointer));
        assert!(is_found(kind, refused_command_is_taken_in_part));
        assert!(is_found(kind, second_command_only_adds));
        assert!(is_found(kind, reset_keeps_mode_1));
        assert!(is_found(kind, reset_keeps_what_is_unread));
    }
}

#[test]
fn what_one_way_does_not_rest_on_is_found_one_way() {
    assert!(is_found(Kind::OneWay, dsr_stops_receiving));
    assert!(is_found(Kind::OneWay, overrun_stops_sending));
    assert!(is_found(Kind::OneWay, receive_off_stops_sending));
}

#[test]
fn wrong_waits_are_found_both_ways_and_one_way() {
    for (name, wait, judged) in wrong_waits::ALL {
        for kind in [Kind::Alike, Kind::OneWay] {
            let seen = is_seen(kind, |input| wrong_waits::wrong_answer(*wait, input));
            assert_eq!(seen, *judged, "{name}, {kind:?}");
        }
    }
}
