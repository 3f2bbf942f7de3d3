//! What the random runs reached, counted by name on the model's chips, and for
//! demand 3 by the sessions' text and answers (`delivery`). A run in which one of
//! its names stays at 0 has not tested what it is for; of a wait, of a stamp and of a status
//! byte each name has to be reached often: `waits` has those of a session's lines, `stamps`
//! follows a chip's tallies, `status` the byte that a lent device keeps.

mod stamps;
pub mod status;
mod waits;

use crate::calls::{Call, Garbage, Lent, Line, DEVICE_BYTES};
use crate::chip::{decode, number, Chip, View, RECEIVE, RESET_ERROR};
use crate::chip::{INTERNAL_RECEIVE_CLOCK, INTERNAL_TRANSMIT_CLOCK};
use crate::chip::{RECEIVE_TALLY, STAMP, START, TRANSMIT_TALLY};
use crate::counts::{seldom, Counts};
use crate::delivery::reached;
use crate::generate::{accepted_mode, ACCEPTED_MODES};
use crate::session::{act_wait, lines, Bench, Pair, Record, Unit};
use crate::Format;
use stamps::{saw_behind, Refused, Watch};
use std::process::ExitCode;

// The error flags in the status ("Registers").
const FLAGS: [(u8, &str); 3] = [(8, "parity flag"), (16, "overrun"), (32, "framing flag")];

/// What every run of chips has to reach.
const OF_CHIPS: [&str; 31] = [
    "internal transmit clock",
    "external transmit clock",
    "internal receive clock",
    "external receive clock",
    "mode write inside a frame sent",
    "mode write inside a frame received",
    "command write inside a frame sent",
    "command write inside a frame received",
    "reset inside a frame sent",
    "reset inside a frame received",
    "break",
    "guard",
    "pin change of DSR",
    "pin change of DCD",
    "pin change of CTS",
    "short pulse",
    "overrun",
    "parity flag",
    "framing flag",
    "flags cleared by receive off",
    "overrun cleared by receive off",
    "parity flag cleared by receive off",
    "framing flag cleared by receive off",
    "empty-mark",
    "change-mark",
    "arrival",
    "refusal 1",
    "refusal 2",
    "refusal 3",
    "refusal 4",
    "refusal 5",
];

/// What only sessions can reach.
const OF_SESSIONS: [&str; 8] = [
    "unequal modes",
    "refusal 6",
    "refusal 7",
    "line of 63 bytes",
    "line of 64 bytes",
    "line of 65 bytes",
    "line of 66 bytes",
    "missing last newline",
];

type Fact = (&'static str, fn(&View) -> bool);

/// How the longest count of ticks of a session begins, at one of the units.
const LONGEST: [Fact; 9] = [
    ("at mark", |view| view.at_mark() && !view.waiting),
    ("in a break", View::in_break),
    ("within a frame, another waiting", |view| {
        view.sending && view.waiting
    }),
    ("within a guard", |view| view.guard > 0 && !view.in_break()),
    ("with transmit off", View::transmit_off),
    ("with CTS high", View::cts_high),
    ("with receive off", View::receive_off),
    ("with DCD high", View::dcd_high),
    ("with no mode", View::no_mode),
];

fn longest(how: &str) -> String {
    format!("L 65535 {how}")
}

/// What only calls can reach.
const OF_CALLS: [&str; 7] = [
    "ticks of both",
    "ticks of both inside a frame sent and one received",
    "ticks of both with a frame begun",
    "ticks of both with an arrival",
    "ticks of both refused",
    "peeks with the change-mark set",
    "out of range seen",
];

/// A call refused on a device out of range, whose bytes then stay.
const REFUSED: &str = "refused";

pub struct Reach {
    counts: Vec<(String, u64)>,
    /// The values of mode 1 that a frame was sent with, and a character received.
    sent: [bool; 256],
    received: [bool; 256],
    /// What has to be reached often: of stamps, of waits, which only sessions have, and of
    /// status bytes, which only lent devices have.
    often: Counts,
}

impl Reach {
    pub fn of_sessions() -> Reach {
        let names = OF_SESSIONS.into_iter().chain(reached::NAMES);
        let longest = LONGEST.iter().map(|(how, _)| longest(how));
        let mut reach = Reach::of(names.map(String::from).chain(longest).collect());
        waits::name(&mut reach.often);
        stamps::name(&mut reach.often);
        stamps::name_of_sessions(&mut reach.often);
        reach
    }

    pub fn of_calls() -> Reach {
        let names = Call::NAMES.into_iter().chain(OF_CALLS);
        let mut names: Vec<String> = names.map(String::from).collect();
        for garbage in Garbage::ALL {
            names.extend(Call::NAMES.map(|call| on_garbage(garbage, call)));
            names.push(on_garbage(garbage, REFUSED));
            names.extend(Call::OF_TALLIES.map(|call| not_its_own(garbage, call.name())));
        }
        let mut reach = Reach::of(names);
        stamps::name(&mut reach.often);
        stamps::name_of_hosts(&mut reach.often);
        status::name_of_calls(&mut reach.often);
        reach
    }

    fn of(further: Vec<String>) -> Reach {
        let names = OF_CHIPS.map(String::from).into_iter().chain(further);
        Reach {
            counts: names.map(|name| (name, 0)).collect(),
            sent: [false; 256],
            received: [false; 256],
            often: Counts::default(),
        }
    }

    fn count(&mut self, name: &str) {
        match self.counts.iter_mut().find(|(known, _)| known == name) {
            Some((_, count)) => *count += 1,
            None => self.often.count(name),
        }
    }

    /// Adds what another reached, whose names are the same.
    pub fn add(&mut self, other: &Reach) {
        for (mine, theirs) in self.counts.iter_mut().zip(&other.counts) {
            mine.1 += theirs.1;
        }
        for value in 0..256 {
            self.sent[value] |= other.sent[value];
            self.received[value] |= other.received[value];
        }
        self.often.join(&other.often);
    }

    /// A line for each count, and whether all was reached.
    pub fn report(&self) -> (String, bool) {
        let mut text = String::new();
        let mut whole = true;
        for (way, seen) in [("sent", &self.sent), ("received", &self.received)] {
            let modes = (0..ACCEPTED_MODES).map(accepted_mode);
            let missing: Vec<u8> = modes.filter(|&mode| !seen[usize::from(mode)]).collect();
            let there = ACCEPTED_MODES as usize - missing.len();
            text += &format!("mode 1 {way}: {there} of {ACCEPTED_MODES} values\n");
            if !missing.is_empty() {
                text += &format!("mode 1 {way}: MISSING {missing:?}\n");
                whole = false;
            }
        }
        for (name, count) in &self.counts {
            let note = if *count == 0 { " MISSING" } else { "" };
            text += &format!("{name}: {count}{note}\n");
            whole &= *count > 0;
        }
        let (others, often) = self.often.report();
        (text + &others, whole && often)
    }

    pub fn conclude(&self) -> ExitCode {
        let missing = format!(
            "not reached, or of a wait, a stamp or a status byte {}",
            seldom()
        );
        conclude(self.report(), &missing)
    }

    /// A transmit tick ("Sending").
    fn transmitted(&mut self, before: &View, after: &View) {
        if after.sending && !before.sending {
            let clock = before.mode2 & INTERNAL_TRANSMIT_CLOCK != 0;
            self.count(if clock {
                "internal transmit clock"
            } else {
                "external transmit clock"
            });
            self.sent[usize::from(before.mode1.expect("a mode"))] = true;
        }
        // A break sets the guard anew at each of its ticks.
        if after.guard > 0 && after.guard >= before.guard {
            self.count("break");
        }
        // Only a character that waits shows that there is a guard.
        if after.guard < before.guard && before.waiting {
            self.count("guard");
        }
        if after.empty_mark && !before.empty_mark {
            self.count("empty-mark");
        }
    }

    /// A receive tick ("Receiving"). Whether a character arrived.
    fn received(&mut self, before: &View, after: &View) -> bool {
        let Some((format, samples)) = before.hearing.filter(|_| before.listening) else {
            return false;
        };
        if samples == format.stop_sample() as usize {
            self.arrived(&format, before, after);
            return true;
        }
        if after.hearing.is_none() {
            self.count("short pulse");
        }
        false
    }

    fn arrived(&mut self, format: &Format, before: &View, after: &View) {
        self.count("arrival");
        let mode1 = before.mode1.expect("a mode");
        let clock = before.mode2 & INTERNAL_RECEIVE_CLOCK != 0;
        // Not where the modes were written since tick 0.
        if decode(mode1, clock) == *format {
            self.count(if clock {
                "internal receive clock"
            } else {
                "external receive clock"
            });
            self.received[usize::from(mode1)] = true;
        }
        for (bit, name) in FLAGS {
            if after.status & !before.status & bit != 0 {
                self.count(name);
            }
        }
    }

    /// A write that is done.
    fn written(&mut self, address: u8, value: u8, before: &View, after: &View) {
        match address {
            2 => self.inside("mode write", before),
            3 => {
                self.inside("command write", before);
                // Reset error clears the flags too, whatever receive is.
                if value & (RECEIVE + RESET_ERROR) == 0 {
                    self.cleared(before.status & !after.status);
                }
            }
            _ => {}
        }
    }

    /// A command that left receive off, and the status bits that fell with it (P1
    /// of the change requests). That the runs also read a status where it shows is
    /// tested by a bench without P1 (`tests/random.rs`).
    fn cleared(&mut self, fallen: u8) {
        if FLAGS.iter().any(|(bit, _)| fallen & bit != 0) {
            self.count("flags cleared by receive off");
        }
        for (bit, name) in FLAGS {
            if fallen & bit != 0 {
                self.count(&format!("{name} cleared by receive off"));
            }
        }
    }

    fn reset(&mut self, before: &View) {
        self.inside("reset", before);
    }

    fn inside(&mut self, what: &str, before: &View) {
        if before.sending {
            self.count(&format!("{what} inside a frame sent"));
        }
        if before.hearing.is_some() {
            self.count(&format!("{what} inside a frame received"));
        }
    }

    /// New levels at the pins.
    fn pinned(&mut self, before: &View, after: &View) {
        for (pin, name) in ["DSR", "DCD", "CTS"].iter().enumerate() {
            if before.pins[pin] != after.pins[pin] {
                self.count(&format!("pin change of {name}"));
            }
        }
        if after.change_mark && !before.change_mark {
            self.count("change-mark");
        }
    }

    /// The text of a session and its answer.
    pub fn session(&mut self, input: &[u8], answer: &[u8]) {
        for line in lines(input).filter(|line| (63..=66).contains(&line.len())) {
            self.count(&format!("line of {} bytes", line.len()));
        }
        if input.last().is_some_and(|&byte| byte != b'\n') {
            self.count("missing last newline");
        }
        waits::watch_lines(&mut self.often, input);
        for line in String::from_utf8_lossy(answer).lines() {
            if let ["E", _, number] = line.split('\t').collect::<Vec<_>>()[..] {
                self.count(&format!("refusal {number}"));
            }
        }
    }

    /// The longest count of ticks, on two chips.
    fn ran_longest(&mut self, before: &[View; 2]) {
        for (how, holds) in LONGEST {
            before
                .iter()
                .filter(|view| holds(view))
                .for_each(|_| self.count(&longest(how)));
        }
    }

    /// What a session of demand 3 reached by its text and answer.
    pub fn delivered(&mut self, names: &[&str]) {
        names.iter().for_each(|name| self.count(name));
    }

    /// A run of calls, made on the model.
    pub fn run(&mut self, lines: &[Line]) {
        let mut run = Run::new();
        for (place, line) in lines.iter().enumerate() {
            if let Line::Call(call) = line {
                let shown = lines.get(place + 1) == Some(&Line::Bytes);
                self.ran_call(&mut run, call, shown);
            } else {
                run.lent.answer(line);
            }
            run.passed(line);
        }
    }

    /// A call of a run, and whether the device is shown behind it.
    fn ran_call(&mut self, run: &mut Run, call: &Call, shown: bool) {
        let before = run.lent.view();
        let own = run.garbage.map(|_| run.lent.bytes());
        let (refusal, answer) = run.lent.call(call);
        let after = run.lent.view();
        self.count(call.name());
        if shown {
            let statuses = [before.status, run.lent.status()];
            status::count_moves(&mut self.often, call, statuses);
            if let Some(set) = &run.set {
                status::called_first(&mut self.often, call, refusal != 0, set);
            }
        }
        if *call == Call::InRange && answer == [0] {
            self.count("out of range seen");
        }
        let arrived = self.called(call, refusal, &before, &after);
        if let (Some(garbage), Some(own)) = (run.garbage, own) {
            self.called_first(garbage, call, refusal, &own);
        }
        run.refused = self.tallied(
            &mut run.watch,
            call,
            refusal,
            run.refused,
            [&before, &after],
            arrived,
        );
    }

    /// The first call on a device out of range.
    fn called_first(
        &mut self,
        garbage: Garbage,
        call: &Call,
        refusal: u8,
        own: &[u8; DEVICE_BYTES],
    ) {
        self.count(&on_garbage(garbage, call.name()));
        let place = match call {
            Call::Stamp => Some(STAMP),
            Call::Start => Some(START),
            Call::TransmitTally => Some(TRANSMIT_TALLY),
            Call::ReceiveTally => Some(RECEIVE_TALLY),
            _ => None,
        };
        if place.is_some_and(|place| number(own, place) != 0) {
            self.count(&not_its_own(garbage, call.name()));
        }
        if refusal != 0 {
            self.count(&on_garbage(garbage, REFUSED));
        }
    }

    /// What the tallies of a call's chip are, before it and behind it, and what it shows
    /// of them. What is refused from now on, for the look behind it.
    fn tallied(
        &mut self,
        watch: &mut Watch,
        call: &Call,
        refusal: u8,
        refused: Option<Refused>,
        [before, after]: [&View; 2],
        arrived: bool,
    ) -> Option<Refused> {
        let counts = &mut self.often;
        match *call {
            Call::Receive(_) if refusal != 0 => return Some(Refused::Receive),
            Call::Tick(_) if refusal != 0 => return Some(Refused::Both),
            _ if refusal != 0 => {}
            Call::Reset => watch.reset(before),
            Call::Read(0) => watch.read(),
            Call::Write(3, _) => watch.commanded(before, after),
            Call::Transmit => watch.transmitted(before, after),
            Call::Receive(_) => watch.received(before, after, arrived),
            Call::Tick(_) => {
                watch.received(before, after, arrived);
                watch.transmitted(before, after);
            }
            Call::Stamp => watch.looked_at_stamp(counts, after),
            Call::Start => watch.saw_start(counts, after),
            Call::TransmitTally => watch.saw_transmit_tally(counts, after),
            Call::ReceiveTally => watch.saw_receive_tally(counts),
            _ => {}
        }
        match (call, refused) {
            (Call::ReceiveTally, Some(refused)) => saw_behind(counts, refused),
            (Call::TransmitTally | Call::Stamp, refused) => return refused,
            _ => {}
        }
        None
    }

    /// Whether a character arrived.
    fn called(&mut self, call: &Call, refusal: u8, before: &View, after: &View) -> bool {
        if refusal != 0 {
            if let Call::Tick(_) = call {
                self.count("ticks of both refused");
            }
            self.count(&format!("refusal {refusal}"));
            return false;
        }
        match *call {
            Call::Reset => self.reset(before),
            Call::Write(address, value) => self.written(address, value, before, after),
            Call::Pins(_) => self.pinned(before, after),
            Call::Transmit => self.transmitted(before, after),
            Call::Receive(_) => return self.received(before, after),
            Call::Tick(_) => return self.ticked(before, after),
            Call::Peek if before.change_mark => self.count("peeks with the change-mark set"),
            _ => {}
        }
        false
    }

    /// Both ticks in one call: no part of the view changes by both. Whether a character
    /// arrived.
    fn ticked(&mut self, before: &View, after: &View) -> bool {
        self.count("ticks of both");
        if before.sending && before.hearing.is_some() {
            self.count("ticks of both inside a frame sent and one received");
        }
        if after.sending && !before.sending {
            self.count("ticks of both with a frame begun");
        }
        self.transmitted(before, after);
        let arrived = self.received(before, after);
        if arrived {
            self.count("ticks of both with an arrival");
        }
        arrived
    }
}

/// Prints the counts. A run that did not reach all has failed, and says what is wrong
/// with those that are missing.
pub fn conclude((report, whole): (String, bool), missing: &str) -> ExitCode {
    print!("{report}");
    if whole {
        return ExitCode::SUCCESS;
    }
    println!("what is MISSING was {missing}");
    ExitCode::FAILURE
}

fn on_garbage(garbage: Garbage, call: &str) -> String {
    format!("device of {}: {call}", garbage.name())
}

/// A look of which the bytes of a device out of range would say another number.
fn not_its_own(garbage: Garbage, call: &str) -> String {
    on_garbage(garbage, call) + ", whose bytes have another number than 0"
}

/// A run of calls between two lines: the device, and what the next call is counted by.
struct Run {
    lent: Lent,
    watch: Watch,
    refused: Option<Refused>,
    /// The device where it was set just before, and how it is out of range.
    set: Option<Lent>,
    garbage: Option<Garbage>,
}

impl Run {
    fn new() -> Run {
        Run {
            lent: Lent::InRange(Chip::just_reset()),
            watch: Watch::default(),
            refused: None,
            set: None,
            garbage: None,
        }
    }

    /// A line that was made; what came before a device that is set counts no more.
    fn passed(&mut self, line: &Line) {
        (self.garbage, self.set) = match line {
            Line::Device(garbage, _) => {
                self.watch.set();
                self.refused = None;
                (*garbage, Some(self.lent.clone()))
            }
            _ => (None, None),
        };
    }
}

/// A pair of chips that is watched.
pub struct Watched<'a> {
    pub pair: Pair,
    pub reach: &'a mut Reach,
    watches: [Watch; 2],
}

impl Watched<'_> {
    pub fn new(reach: &mut Reach) -> Watched<'_> {
        let pair = Pair::just_reset();
        let watches = [Watch::default(); 2];
        Watched {
            pair,
            reach,
            watches,
        }
    }
}

impl Watched<'_> {
    fn views(&self) -> [View; 2] {
        [self.pair.a.view(), self.pair.b.view()]
    }

    fn tick(&mut self) -> Result<String, u8> {
        let before = self.views();
        let answer = self.pair.act(Record::JoinedTicks(1));
        let after = self.views();
        for (near, far) in [(0, 1), (1, 0)] {
            self.reach.transmitted(&before[near], &after[near]);
            let arrived = self.reach.received(&before[near], &after[near]);
            let watch = &mut self.watches[near];
            watch.transmitted(&before[near], &after[near]);
            watch.received(&before[near], &after[near], arrived);
            if arrived && unequal(&before[far], &before[near]) {
                self.reach.count("unequal modes");
            }
        }
        answer
    }
}

/// Whether a character is sent in another format than it is heard in; the stop
/// length, of which one sample is heard, has no part in it.
fn unequal(sender: &View, hearer: &View) -> bool {
    let (Some(mode1), Some((heard, _))) = (sender.mode1, hearer.hearing) else {
        return false;
    };
    let mut sent = decode(mode1, sender.mode2 & INTERNAL_TRANSMIT_CLOCK != 0);
    sent.stop = heard.stop;
    sender.sending && sent != heard
}

impl Bench for Watched<'_> {
    fn act(&mut self, record: Record) -> Result<String, u8> {
        let index = |unit: Unit| usize::from(unit == Unit::B);
        let before = self.views();
        if let Record::JoinedTicks(count) = record {
            if count == u16::MAX {
                self.reach.ran_longest(&before);
            }
            return (0..count).map(|_| self.tick()).collect();
        }
        if let Record::Wait(unit, limit) = record {
            waits::watch(&mut self.reach.often, &self.pair, unit, limit);
            return act_wait(self, |watched| &watched.pair, unit, limit);
        }
        let answer = self.pair.act(record)?;
        let after = self.views();
        match record {
            Record::Write(unit, address, value) => {
                let watch = &mut self.watches[index(unit)];
                let (before, after) = (&before[index(unit)], &after[index(unit)]);
                self.reach.written(address, value, before, after);
                if address == 3 {
                    watch.commanded(before, after);
                }
            }
            Record::Read(unit, 0) => {
                let watch = &mut self.watches[index(unit)];
                watch.read_stamp(&mut self.reach.often, &after[index(unit)]);
            }
            Record::Pins(unit, _) => self.reach.pinned(&before[index(unit)], &after[index(unit)]),
            Record::Reset(unit) => {
                self.reach.reset(&before[index(unit)]);
                self.watches[index(unit)].reset(&before[index(unit)]);
            }
            Record::Read(..) | Record::JoinedTicks(_) | Record::Wait(..) => {}
        }
        Ok(answer)
    }
}
