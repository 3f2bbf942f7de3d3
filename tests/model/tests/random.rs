//! The random tests themselves: wrong benches and wrong drivers are found within
//! the fixed seeds, and what is shown of them is short.

mod wrong_waits;

use model::calls::{numbers, Call, Garbage, Lent, Line, DEVICE_BYTES};
use model::chip::{set_number, Chip, View, RECEIVE_TALLY, TRANSMIT_TALLY};
use model::driver::{difference, shortest, text};
use model::generate::calls::{run, RUNS};
use model::generate::{session, Kind, KINDS, SESSIONS};
use model::program::Program;
use model::reach::{Reach, Watched};
use model::session::{act_wait, answer, answer_on, parse, Bench, Pair, Record, Unit};
use model::shorten::{self, shorten, smaller};
use std::time::Duration;

// Shortening.

#[test]
fn pieces_are_dropped_until_no_single_one_can_be() {
    let both = |pieces: &[u32]| pieces.contains(&3) && pieces.contains(&77);
    let all: Vec<u32> = (0..100).collect();
    assert_eq!(shorten(all, |_| Vec::new(), both), [3, 77]);
}

#[test]
fn a_piece_that_a_simpler_one_makes_needless_is_dropped() {
    // The second piece has to be at least the first.
    let falls = |pieces: &[u32]| {
        let first = pieces.first().copied().unwrap_or(0);
        pieces
            .last()
            .is_some_and(|&last| last >= 5 && last >= first)
    };
    assert_eq!(shorten(vec![900, 1000], |&n| smaller(n), falls), [5]);
}

#[test]
fn smaller_numbers_begin_with_0_and_end_with_one_less() {
    assert_eq!(smaller(0), []);
    assert_eq!(smaller(1), [0]);
    assert_eq!(smaller(100), [0, 50, 75, 88, 94, 97, 99]);
}

#[test]
fn counts_and_bytes_of_a_session_are_shortened() {
    let differs = |input: &[u8]| {
        let text = String::from_utf8_lossy(input);
        let counts = text
            .lines()
            .filter_map(|line| line.strip_prefix("L\t")?.parse::<u32>().ok());
        counts.sum::<u32>() >= 41
    };
    let input = b"R\tA\t1\nL\t65535\nL\t900\nxyz\nW\tB\t2\t77\n";
    assert_eq!(shorten::session(input, differs), b"L\t41\n");
    let longest = |input: &[u8]| input.len() >= 10;
    assert_eq!(shorten::session(b"abc\nabcdefghijklmno", longest).len(), 10);
}

// Wrong session programs.

/// What is wrong with a bench: it is given each chip before a joined tick.
type Fault = fn(&mut Chip);

struct Wrong {
    pair: Pair,
    before_tick: Fault,
}

impl Bench for Wrong {
    fn act(&mut self, record: Record) -> Result<String, u8> {
        let count = match record {
            Record::JoinedTicks(count) => count,
            Record::Wait(unit, limit) => return act_wait(self, |wrong| &wrong.pair, unit, limit),
            _ => return self.pair.act(record),
        };
        for _ in 0..count {
            (self.before_tick)(&mut self.pair.a);
            (self.before_tick)(&mut self.pair.b);
            self.pair.act(Record::JoinedTicks(1))?;
        }
        Ok(String::new())
    }
}

fn wrong_answer(before_tick: Fault, input: &[u8]) -> Vec<u8> {
    let pair = Pair::just_reset();
    answer_on(&mut Wrong { pair, before_tick }, input)
}

/// The shortest session that shows that `wrong` is not `answer`, from the first
/// one of `kind` that does.
fn found(kind: Kind, wrong: impl Fn(&[u8]) -> Vec<u8>) -> Vec<u8> {
    let differs = |input: &[u8]| wrong(input) != answer(input);
    let mut sessions = (0..SESSIONS).map(|index| session(kind, index));
    let first = sessions.find(|input| differs(input)).expect("a difference");
    shorten::session(&first, differs)
}

fn lines(session: &[u8]) -> usize {
    model::session::lines(session).count()
}

/// Whether a character comes with the next receive tick.
fn comes_next(view: &View) -> bool {
    let last = |(format, samples): (model::Format, usize)| samples == format.stop_sample() as usize;
    view.listening && view.hearing.is_some_and(last)
}

/// Without an unread character there is no overrun.
fn never_overruns(chip: &mut Chip) {
    if comes_next(&chip.view()) {
        chip.read(0);
    }
}

/// "Easy ways to get it wrong": the flags fall when a good character comes. Here
/// they fall before every character, and a bad one sets them again.
fn a_good_character_clears_flags(chip: &mut Chip) {
    let view = chip.view();
    if comes_next(&view) {
        chip.write(3, view.command | 16);
    }
}

/// P1 of the change requests, done with DCD high too and not with receive off
/// alone.
fn a_tick_with_dcd_high_clears_flags(chip: &mut Chip) {
    let view = chip.view();
    if view.pins[1] == 1 {
        chip.write(3, view.command | 16);
    }
}

/// A break that has no guard behind it.
fn no_guard(chip: &mut Chip) {
    while chip.view().guard > 0 && chip.view().command & 8 == 0 {
        chip.transmit();
    }
}

// The modes, commands and pins of both ends, a character, ticks and a status are
// nine lines; a further command makes them ten, and a second character after the
// first, or new pins and a tick, eleven. The mark that the first one needs, or modes 2
// without which the frames are longer, are lines of their own: twelve. Where waits bring two characters there is a
// tick and a read between, and one wait more: fourteen.

#[test]
fn a_bench_that_never_overruns_is_found() {
    let shortest = found(Kind::Realistic, |input| wrong_answer(never_overruns, input));
    assert!(lines(&shortest) <= 12, "{}", shortest.escape_ascii());
}

#[test]
fn flags_that_a_good_character_clears_are_found() {
    let shortest = found(Kind::Realistic, |input| {
        wrong_answer(a_good_character_clears_flags, input)
    });
    assert!(lines(&shortest) <= 14, "{}", shortest.escape_ascii());
}

#[test]
fn flags_that_a_tick_with_dcd_high_clears_are_found() {
    let shortest = found(Kind::Realistic, |input| {
        wrong_answer(a_tick_with_dcd_high_clears_flags, input)
    });
    assert!(lines(&shortest) <= 11, "{}", shortest.escape_ascii());
}

/// Document 01 without P1: what receive off clears stays in the status until
/// reset error or a reset.
struct WithoutP1 {
    pair: Pair,
    left: [u8; 2],
}

impl Bench for WithoutP1 {
    fn act(&mut self, record: Record) -> Result<String, u8> {
        let (Record::Write(unit, ..) | Record::Read(unit, _) | Record::Reset(unit)) = record else {
            return self.pair.act(record);
        };
        let left = &mut self.left[usize::from(unit == Unit::B)];
        let status = self.pair.chip(unit).view().status | *left;
        let answer = self.pair.act(record)?;
        match record {
            Record::Reset(_) => *left = 0,
            Record::Write(_, 3, value) if value & 16 != 0 => *left = 0,
            Record::Write(_, 3, value) if value & 4 == 0 => *left = status & 56,
            Record::Read(_, 1) => return Ok(format!("R\t{unit:?}\t1\t{status}\n")),
            _ => {}
        }
        Ok(answer)
    }
}

#[test]
fn flags_that_receive_off_leaves_are_found() {
    let shortest = found(Kind::Realistic, |input| {
        let (pair, left) = (Pair::just_reset(), [0; 2]);
        answer_on(&mut WithoutP1 { pair, left }, input)
    });
    assert!(lines(&shortest) <= 10, "{}", shortest.escape_ascii());
}

#[test]
fn a_missing_guard_is_found() {
    let shortest = found(Kind::Hostile, |input| wrong_answer(no_guard, input));
    assert!(lines(&shortest) <= 9, "{}", shortest.escape_ascii());
}

/// The answer to a session whose lines are changed first.
fn answer_to_changed(input: &[u8], change: impl Fn(&[u8]) -> Vec<u8>) -> Vec<u8> {
    let changed =
        model::session::lines(input).flat_map(|line| [change(line), b"\n".to_vec()].concat());
    answer(&changed.collect::<Vec<u8>>())
}

#[test]
fn an_overlong_line_counted_as_two_is_found() {
    // The rest from byte 65 on is taken for a line of its own.
    let cut = |line: &[u8]| match line.len() {
        0..=64 => line.to_vec(),
        _ => [&line[..65], b"\n", &line[64..]].concat(),
    };
    let shortest = found(Kind::Malformed, |input| answer_to_changed(input, cut));
    let lengths: Vec<usize> = model::session::lines(&shortest).map(<[u8]>::len).collect();
    assert_eq!(lengths, [65]);
}

#[test]
fn a_count_of_one_too_many_that_is_taken_is_found() {
    let taken = |line: &[u8]| match line {
        b"L\t65536" => b"L\t65535".to_vec(),
        _ => line.to_vec(),
    };
    let shortest = found(Kind::Malformed, |input| answer_to_changed(input, taken));
    assert_eq!(shortest.trim_ascii_end(), b"L\t65536");
}

#[test]
fn a_longest_count_that_is_cut_short_is_found() {
    let cut = |line: &[u8]| match line {
        b"L\t65535" => b"L\t100".to_vec(),
        _ => line.to_vec(),
    };
    let shortest = found(Kind::Realistic, |input| answer_to_changed(input, cut));
    assert!(lines(&shortest) <= 12, "{}", shortest.escape_ascii());
}

#[test]
fn sessions_of_each_kind_have_waits() {
    for kind in KINDS {
        let inputs: Vec<Vec<u8>> = (0..SESSIONS).map(|index| session(kind, index)).collect();
        // Those that are done, refused with 21, and refused with 6.
        let mut counts = [0; 3];
        for line in inputs.iter().flat_map(|input| model::session::lines(input)) {
            match parse(line) {
                Ok(Record::Wait(_, 0..=65_535)) => counts[0] += 1,
                Ok(Record::Wait(..)) => counts[1] += 1,
                Err(6) if line.starts_with(b"B\t") => counts[2] += 1,
                _ => {}
            }
        }
        assert!(
            counts.iter().all(|&count| count >= 40),
            "{kind:?}: {counts:?}"
        );
    }
}

#[test]
fn each_wrong_wait_is_found() {
    // In lines that are damaged hardly a character comes.
    let kinds = KINDS.into_iter().filter(|&kind| kind != Kind::Malformed);
    for kind in kinds {
        for (name, wait, _) in wrong_waits::ALL {
            let shortest = found(kind, |input| wrong_waits::wrong_answer(*wait, input));
            let shown = format!("{name}: {}", shortest.escape_ascii());
            // Pointers are put right in some set-ups, and a tick is seen by a count of
            // ticks before the wait and one behind it.
            assert!(lines(&shortest) <= 16, "{shown}");
            let mut lines = model::session::lines(&shortest);
            assert!(lines.any(|line| line.starts_with(b"B\t")), "{shown}");
        }
    }
}

#[test]
fn limits_of_waits_with_another_refusal_are_found() {
    // Six digits that are refused with 21, and five that are refused with 6.
    let limits: [(&[u8], &[u8]); 3] = [
        (b"B\tA\t100000", b"B\tA\t99999"),
        (b"B\tB\t65536", b"x"),
        (b"B\tB\t99999", b"x"),
    ];
    for (given, taken) in limits {
        let other = |line: &[u8]| if line == given { taken } else { line }.to_vec();
        let shortest = found(Kind::Malformed, |input| answer_to_changed(input, other));
        assert_eq!(shortest.trim_ascii_end(), given);
    }
}

#[test]
fn flags_that_a_command_with_receive_on_clears_are_found() {
    // 55 is 39 with reset error.
    let clearing = |line: &[u8]| match line {
        b"W\tA\t3\t39" => b"W\tA\t3\t55".to_vec(),
        b"W\tB\t3\t39" => b"W\tB\t3\t55".to_vec(),
        _ => line.to_vec(),
    };
    let shortest = found(Kind::Realistic, |input| answer_to_changed(input, clearing));
    assert!(lines(&shortest) <= 10, "{}", shortest.escape_ascii());
}

#[test]
fn each_seed_gives_one_session_and_no_other() {
    for kind in KINDS {
        assert_eq!(session(kind, 7), session(kind, 7));
        assert_ne!(session(kind, 7), session(kind, 8));
    }
}

// Wrong drivers.

/// What is wrong with a driver: the device before a line, and after it.
struct WrongDriver {
    before: fn(&mut Lent, &Line),
    after: fn(&mut Lent, &Line, &mut String),
}

const RIGHT: WrongDriver = WrongDriver {
    before: |_, _| {},
    after: |_, _, _| {},
};

impl WrongDriver {
    fn output(&self, lines: &[Line]) -> String {
        let mut lent = Lent::InRange(Chip::just_reset());
        let mut output = String::new();
        for line in lines {
            (self.before)(&mut lent, line);
            let mut answer = lent.answer(line);
            (self.after)(&mut lent, line, &mut answer);
            output += &(answer + "\n");
        }
        output
    }

    /// The shortest run that shows it, from the first run that does.
    fn found(&self) -> Vec<Line> {
        let differs = |lines: &[Line]| difference(lines, &self.output(lines)).is_some();
        let first = (0..RUNS).map(run).find(|lines| differs(lines));
        shortest(&first.expect("a difference"), differs)
    }
}

/// Whether a line shows that a device was mended.
fn shows_the_device(line: &Line) -> bool {
    matches!(line, Line::Bytes | Line::Call(Call::InRange))
}

#[test]
fn a_right_driver_is_found_right() {
    for lines in (0..RUNS).step_by(12).map(run) {
        assert_eq!(difference(&lines, &RIGHT.output(&lines)), None);
    }
}

#[test]
fn answers_too_few_or_too_many_are_found() {
    let lines = run(0);
    let output = RIGHT.output(&lines);
    let without = output.trim_end().rsplit_once('\n').unwrap().0;
    assert_eq!(difference(&lines, without).unwrap().line, lines.len() - 1);
    let more = difference(&lines, &(output + "0\n")).unwrap();
    assert_eq!(more.line, lines.len());
}

#[test]
fn a_device_mended_by_a_refused_call_is_found() {
    let after = |lent: &mut Lent, line: &Line, _: &mut String| {
        if let Line::Call(Call::Read(4..) | Call::Write(4.., _)) = line {
            lent.settled();
        }
    };
    let found = WrongDriver { after, ..RIGHT }.found();
    assert_eq!(found.len(), 3);
    assert_eq!(found[1], Line::Call(Call::Read(4)));
    assert!(shows_the_device(&found[2]));
}

#[test]
fn a_device_mended_by_a_look_at_the_outputs_is_found() {
    let after = |lent: &mut Lent, line: &Line, _: &mut String| {
        if let Line::Call(Call::Outputs) = line {
            lent.settled();
        }
    };
    let found = WrongDriver { after, ..RIGHT }.found();
    assert_eq!(found.len(), 3);
    assert_eq!(found[1], Line::Call(Call::Outputs));
    assert!(shows_the_device(&found[2]));
}

#[test]
fn a_device_mended_by_a_look_at_its_range_is_found() {
    let after = |lent: &mut Lent, line: &Line, _: &mut String| {
        if let Line::Call(Call::InRange) = line {
            lent.settled();
        }
    };
    let found = WrongDriver { after, ..RIGHT }.found();
    assert_eq!(found.len(), 3);
    assert_eq!(found[1], Line::Call(Call::InRange));
    assert!(shows_the_device(&found[2]));
}

#[test]
fn a_peek_that_reads_is_found() {
    let after = |lent: &mut Lent, line: &Line, _: &mut String| {
        if let (Lent::InRange(chip), Line::Call(Call::Peek)) = (lent, line) {
            chip.read(1);
        }
    };
    let found = WrongDriver { after, ..RIGHT }.found();
    // A device with a change-mark, and two looks.
    assert_eq!(found.len(), 3, "{}", text(&found));
}

#[test]
fn a_refused_tick_that_transmits_is_found() {
    let after = |lent: &mut Lent, line: &Line, _: &mut String| {
        if let (Lent::InRange(chip), Line::Call(Call::Tick(2..))) = (lent, line) {
            chip.transmit();
        }
    };
    let found = WrongDriver { after, ..RIGHT }.found();
    assert!(found.contains(&Line::Call(Call::Tick(2))));
    // Reset, set-up, a character, the refused tick, transmit ticks up to a level
    // that is not the next one's.
    assert!(found.len() <= 12, "{}", text(&found));
}

#[test]
fn a_tick_that_hears_twice_is_found() {
    let before = |lent: &mut Lent, line: &Line| {
        if let (Lent::InRange(chip), Line::Call(Call::Tick(0..=1))) = (lent, line) {
            chip.receive(1);
        }
    };
    let found = WrongDriver { before, ..RIGHT }.found();
    assert!(found.len() <= 22, "{}", text(&found));
}

#[test]
fn a_level_that_is_not_refused_is_found() {
    let after = |_: &mut Lent, line: &Line, answer: &mut String| {
        if let Line::Call(Call::Receive(_)) = line {
            *answer = numbers(&[0]);
        }
    };
    let found = WrongDriver { after, ..RIGHT }.found();
    assert_eq!(found.len(), 2);
    assert_eq!(found[1], Line::Call(Call::Receive(2)));
}

#[test]
fn a_driver_that_never_overruns_is_found() {
    let before = |lent: &mut Lent, line: &Line| {
        if let (Lent::InRange(chip), Line::Call(Call::Receive(0..=1))) = (lent, line) {
            never_overruns(chip);
        }
    };
    let found = WrongDriver { before, ..RIGHT }.found();
    // Reset, set-up, mark, two frames of six bits with a factor of 1, status.
    assert!(found.len() <= 22, "{}", text(&found));
}

// The outside program.

fn program(words: &[&str]) -> Program {
    Program {
        words: words.iter().map(|word| word.to_string()).collect(),
        limit: Duration::from_secs(10),
    }
}

#[test]
fn a_program_answers_more_than_a_pipe_holds() {
    let input = vec![b'x'; 1 << 20];
    assert_eq!(program(&["cat"]).answer(&input), Ok(input));
    // Also where it leaves its input unread.
    let input = vec![b'x'; 1 << 20];
    assert_eq!(program(&["echo"]).answer(&input), Ok(b"\n".to_vec()));
}

#[test]
fn a_program_that_fails_has_no_answer() {
    let why = |words: &[&str]| program(words).answer(b"").unwrap_err();
    assert!(why(&["no such program"]).contains("does not start"));
    assert!(why(&["false"]).contains("exit status: 1"));
    assert!(why(&["sh", "-c", "kill -9 $$"]).contains("signal: 9"));
}

#[test]
fn a_program_that_takes_too_long_is_ended() {
    for script in ["exec sleep 1000", "exec >&-; exec sleep 1000"] {
        let mut endless = program(&["sh", "-c", script]);
        endless.limit = Duration::from_millis(200);
        assert!(endless
            .answer(&[b'x'; 1 << 20])
            .unwrap_err()
            .contains("took over"));
    }
}

// What was reached.

#[test]
fn what_was_not_reached_is_missing() {
    for reach in [Reach::of_sessions(), Reach::of_calls()] {
        let (report, whole) = reach.report();
        assert!(!whole);
        assert!(report.contains("mode 1 sent: 0 of 144 values\n"));
        assert!(report.contains("short pulse: 0 MISSING\n"));
    }
}

#[test]
fn a_false_start_is_reached_and_no_character() {
    let mut reach = Reach::of_calls();
    let levels = [[1].as_slice(), &[0; 8], &[1]].concat();
    let set_up = [Call::Write(2, 78), Call::Write(3, 4), Call::Pins([0, 0, 0])];
    let calls = set_up
        .into_iter()
        .chain(levels.into_iter().map(Call::Receive));
    reach.run(&calls.map(Line::Call).collect::<Vec<_>>());
    let (report, _) = reach.report();
    assert!(report.contains("short pulse: 1\n"), "{report}");
    assert!(report.contains("arrival: 0 MISSING\n"), "{report}");
}

#[test]
fn what_receive_off_alone_clears_is_counted() {
    // 8 bits odd with a factor of 1: 0 with a parity bit of 0 and a stop of 0.
    let levels = [[1].as_slice(), &[0; 11]].concat();
    let set_up = [Call::Write(2, 93), Call::Write(3, 4), Call::Pins([0, 0, 0])];
    let bad: Vec<Call> = set_up
        .into_iter()
        .chain(levels.into_iter().map(Call::Receive))
        .collect();
    // Not by reset error, with receive left on, or refused; and only once.
    let once = [vec![0], vec![35, 0], vec![6, 64, 0], vec![4, 11, 20]];
    let never = [vec![16], vec![4], vec![64], vec![20, 0], vec![]];
    let all = once
        .map(|commands| (commands, "1"))
        .into_iter()
        .chain(never.map(|commands| (commands, "0 MISSING")));
    for (commands, count) in all {
        let mut reach = Reach::of_calls();
        let commands = commands.into_iter().map(|value| Call::Write(3, value));
        let calls = bad.iter().copied().chain(commands);
        reach.run(&calls.map(Line::Call).collect::<Vec<_>>());
        let (report, _) = reach.report();
        for name in ["flags", "parity flag", "framing flag"] {
            let line = format!("\n{name} cleared by receive off: {count}\n");
            assert!(report.contains(&line), "{report}");
        }
        assert!(report.contains("\noverrun cleared by receive off: 0 MISSING\n"));
    }
}

#[test]
fn no_flag_is_seen_while_receive_is_off() {
    // P1 clears them, and no character comes while receive is off; only a device that is
    // lent so may have one.
    for lines in (0..RUNS).map(run) {
        let mut lent = Lent::InRange(Chip::just_reset());
        let mut lent_so = false;
        for line in &lines {
            lent.answer(line);
            let view = lent.view();
            let seen = view.command & 4 == 0 && view.status & 56 != 0;
            match line {
                Line::Device(..) => lent_so = seen,
                Line::Call(Call::Reset) => lent_so = false,
                _ => {}
            }
            assert!(lent_so || !seen);
        }
    }
}

/// What a session reached by its text, and on the model's chips.
fn reached(input: &[u8]) -> String {
    let mut reach = Reach::of_sessions();
    let output = answer_on(&mut Watched::new(&mut reach), input);
    reach.session(input, &output);
    reach.report().0
}

#[test]
fn the_lines_of_waits_are_counted() {
    let input =
        "B\tA\t7\nB\tB\t07\nB\tA\t0\nB\tA\t65536\nB\tA\t000007\nB\tC\t7\nB\tA\tx\nb\tA\t7\n\
        B\ta\t7\nB\tA\nB\tA\t7\t7\n";
    let long = format!("B\tA\t{:0>61}\nB\tB\t99999", 7);
    let report = reached((input.to_string() + &long).as_bytes());
    for (name, counts) in [
        ("wait that uses up its limit, by unit", "1 1"),
        ("wait that has limit 0, by unit", "1 0"),
        ("wait that is refused, by unit", "1 1"),
        ("wait by the digits of its count, 1 to 4", "3 0 0 0"),
        ("wait's line with zeros before its limit", "1"),
        ("wait's line that is the last and lacks its newline", "1"),
        ("refusal 21", "2"),
        ("refusal 7 of a wait's line", "1"),
        ("refusal 6 of a wait's line: six digits or more", "1"),
        ("refusal 6 of a wait's line: no such unit", "1"),
        ("refusal 6 of a wait's line: no number", "1"),
        ("refusal 6 of a wait's line: lower case", "2"),
        ("refusal 6 of a wait's line: too few fields", "1"),
        ("refusal 6 of a wait's line: too many fields", "1"),
    ] {
        let line = format!("\n{name}: {counts} MISSING\n");
        assert!(report.contains(&line), "{line}{report}");
    }
}

#[test]
fn stamps_that_a_session_reads_are_counted() {
    // 8 bits, no parity, a tick a bit: a character comes 10 ticks after its write.
    let input = "R A 0; L 3; W A 2 77; W A 3 5; P A 0 0 0; W B 2 77; W B 3 5; P B 0 0 0; L 1; \
        W A 0 65; L 10; R B 0; R B 0; W A 0 1; L 1; W A 0 2; L 20; R B 0; \
        W A 0 3; L 11; W B 3 1; R B 0; Z B; R B 0";
    let report = reached((input.replace("; ", "\n").replace(' ', "\t") + "\n").as_bytes());
    for (name, counts) in [
        ("stamp of 0 seen before any character", "2"),
        ("stamp of 0 seen behind a reset that cleared one", "1"),
        ("stamp seen behind a read of its character", "3"),
        ("stamp seen behind a second read of its character", "1"),
        (
            "stamp seen of a character that receive off emptied unread",
            "1",
        ),
        ("stamp seen of a character that overran", "1"),
        ("stamp seen that counts ticks with no mode", "4"),
        ("stamp seen that counts ticks with receive off", "4"),
        ("stamp seen by its digits, 1 to 4", "0 4 0 0"),
        ("stamp seen of five digits or more", "0"),
    ] {
        let line = format!("\n{name}: {counts} MISSING\n");
        assert!(report.contains(&line), "{line}{report}");
    }
}

#[test]
fn tallies_that_a_host_looks_at_are_counted() {
    let mut about_to_wrap = Chip::just_reset().bytes();
    set_number(&mut about_to_wrap, TRANSMIT_TALLY, u32::MAX);
    set_number(&mut about_to_wrap, RECEIVE_TALLY, u32::MAX);
    let calls = |calls: &[Call]| calls.iter().copied().map(Line::Call).collect::<Vec<_>>();
    let looks = [Call::TransmitTally, Call::ReceiveTally];
    let lines = [
        // A tick that nothing hears, and refused ones.
        calls(&[Call::Reset, Call::Receive(1), Call::ReceiveTally]),
        calls(&[Call::Receive(2), Call::TransmitTally, Call::ReceiveTally]),
        calls(&[Call::Tick(2), Call::ReceiveTally, Call::ReceiveTally]),
        vec![Line::Device(None, about_to_wrap)],
        calls(&looks),
        calls(&[Call::Tick(1)]),
        calls(&looks),
        // Its bytes are not what is answered.
        vec![Line::Device(Some(Garbage::AllOnes), [255; DEVICE_BYTES])],
        calls(&[Call::Stamp]),
    ]
    .concat();
    let mut reach = Reach::of_calls();
    reach.run(&lines);
    let (report, _) = reach.report();
    let seen = "receive tally seen";
    let own = "whose bytes have another number than 0";
    for (name, count) in [
        (format!("{seen} that counts a tick with no mode"), "5"),
        (format!("{seen} behind a refused receive tick"), "1"),
        (
            "tallies seen behind a refused tick of both".to_string(),
            "1",
        ),
        (format!("{seen} that wrapped"), "1"),
        ("transmit tally seen that wrapped".to_string(), "1"),
        ("start stamp seen within its frame".to_string(), "0"),
    ] {
        let line = format!("\n{name}: {count} MISSING\n");
        assert!(report.contains(&line), "{line}{report}");
    }
    let line = format!("\ndevice of all ones: stamp, {own}: 1\n");
    assert!(report.contains(&line), "{line}{report}");
}
