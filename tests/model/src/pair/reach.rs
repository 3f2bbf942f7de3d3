//! What the random runs of pairs reached, counted by name on the model. A run in
//! which one of its counts stays small has not tested what it is for.
//!
//! `ticks` is what happens in a tick of a run, `ways` what a run does on each of its two
//! ways, by the `facts` that are counted of it, `step` where a receiver stands to the
//! frame that it hears. `waits` is what a wait does, `hosts` what only a host's has,
//! `tallies` what both do to the tallies and `status` what they do to the status bytes.

mod facts;
mod hosts;
mod status;
mod step;
mod tallies;
mod ticks;
pub mod waits;
mod ways;

use super::lines::Line;
use super::{Call, Pair, RUN_LIMIT};
use crate::calls::{Call as ChipCall, Lent};
use crate::counts::Counts;
use crate::session::UNITS;
use std::process::ExitCode;

/// The two ways of a line, from a and from b.
const WAYS: usize = 2;

type Length = (&'static str, fn(u32) -> bool);

/// The lengths of runs.
const LENGTHS: [Length; 10] = [
    ("0", |ticks| ticks == 0),
    ("1", |ticks| ticks == 1),
    ("2 to 999", |ticks| (2..1000).contains(&ticks)),
    ("1000 to 65534", |ticks| (1000..RUN_LIMIT).contains(&ticks)),
    ("65535", |ticks| ticks == RUN_LIMIT),
    ("65536", |ticks| ticks == RUN_LIMIT + 1),
    ("65537 to 4294967294", |ticks| {
        (RUN_LIMIT + 2..u32::MAX).contains(&ticks)
    }),
    ("4294967295", |ticks| ticks == u32::MAX),
    // What is left of 16 bits would be none, or a run.
    ("a multiple of 65536", |ticks| ticks > 0 && ticks << 16 == 0),
    ("a multiple of 65536 and 1 to 999", |ticks| {
        ticks > RUN_LIMIT && (1..1000).contains(&(ticks % 65_536))
    }),
];

/// What is called on devices of which some are out of range.
const CALLED: [&str; 4] = ["tick", "run of 0", "run of more", "refused run"];
const RANGES: [&str; 4] = [
    "both in range",
    "a out of range",
    "b out of range",
    "both out of range",
];

/// The chip's calls between the others.
const OF_CHIPS: [&str; 8] = [
    "reset",
    "read",
    "write",
    "pins",
    "stamp",
    "start",
    "transmit_tally",
    "receive_tally",
];

pub struct Reach {
    counts: Counts,
}

impl Reach {
    pub fn of_pairs() -> Reach {
        let mut counts = Counts::default();
        counts.name(LENGTHS.map(|(length, _)| run_of(length)));
        for called in CALLED {
            counts.name(RANGES.map(|range| on_range(called, range)));
        }
        counts.name(CALLED[1..].iter().map(|called| would_go_on(called)));
        counts.name(CALLED[1..].iter().map(|called| stands(called)));
        counts.name((0..4).map(answer));
        counts.name_places(UNITS.len(), OF_CHIPS.map(by_end));
        counts.name_places(UNITS.len(), [by_end("refused")]);
        ways::name(&mut counts);
        hosts::name(&mut counts);
        tallies::name(&mut counts);
        status::name(&mut counts, &CALLED);
        Reach { counts }
    }

    /// A line for each name, and whether all was reached often enough.
    pub fn report(&self) -> (String, bool) {
        self.counts.report()
    }

    pub fn conclude(&self) -> ExitCode {
        self.counts.conclude()
    }

    /// A run of lines, made on the model.
    pub fn run(&mut self, lines: &[Line]) {
        let mut pair = Pair::just_reset();
        for (place, line) in lines.iter().enumerate() {
            match *line {
                Line::Device(unit, bytes) => *pair.end_mut(unit) = Lent::of_bytes(bytes),
                Line::Bytes => {}
                Line::Call(call) => {
                    let shown = lines.get(place + 1) == Some(&Line::Bytes);
                    self.called(&mut pair, call, shown);
                }
            }
        }
    }

    /// A call, and whether the pair is shown behind it: else what it did to it is not
    /// compared.
    fn called(&mut self, pair: &mut Pair, call: Call, shown: bool) {
        match call {
            Call::Tick => {
                self.on_ranges("tick", pair, shown);
                let before = pair.clone();
                let levels = pair.call(&call).1[0];
                self.counts.count(&answer(levels));
                if shown {
                    status::watch(&mut self.counts, "tick", &before, pair);
                }
            }
            Call::Run(ticks) => self.ran(pair, ticks, shown),
            Call::Wait(number, limit) if shown => {
                let before = pair.clone();
                hosts::watch(&mut self.counts, pair, number, limit);
                tallies::watch(&mut self.counts, "wait", &before, pair);
                status::watch(&mut self.counts, "wait", &before, pair);
            }
            Call::Wait(..) => drop(pair.call(&call)),
            Call::On(unit, of_chip) => {
                let (refusal, _) = pair.call(&call);
                self.chip_called(unit as usize, &of_chip, refusal);
            }
        }
    }

    fn chip_called(&mut self, end: usize, call: &ChipCall, refusal: u8) {
        self.counts.count_place(&by_end(call.name()), end);
        if refusal != 0 {
            self.counts.count_place(&by_end("refused"), end);
        }
    }

    fn ran(&mut self, pair: &mut Pair, ticks: u32, shown: bool) {
        if !shown {
            pair.run(ticks);
            return;
        }
        for (length, _) in LENGTHS.iter().filter(|(_, is)| is(ticks)) {
            self.counts.count(&run_of(length));
        }
        let called = match ticks {
            0 => "run of 0",
            1..=RUN_LIMIT => "run of more",
            _ => "refused run",
        };
        self.on_ranges(called, pair, shown);
        let in_range = range(pair) == RANGES[0];
        let name = match pair.stands() {
            true => stands(called),
            false => would_go_on(called),
        };
        self.counts.count_if(in_range, &name);
        let before = pair.clone();
        if (1..=RUN_LIMIT).contains(&ticks) {
            ways::watch(&mut self.counts, pair, ticks);
            tallies::watch(&mut self.counts, "run", &before, pair);
            status::watch(&mut self.counts, "run", &before, pair);
        } else {
            tallies::left(&mut self.counts, called, pair);
        }
    }

    fn on_ranges(&mut self, called: &str, pair: &Pair, shown: bool) {
        if shown {
            self.counts.count(&on_range(called, range(pair)));
            status::called(&mut self.counts, called, pair);
        }
    }
}

/// Which devices are out of range.
fn range(pair: &Pair) -> &'static str {
    let out = UNITS.map(|unit| usize::from(matches!(pair.end(unit), Lent::OutOfRange(_))));
    RANGES[out[0] + 2 * out[1]]
}

fn run_of(length: &str) -> String {
    format!("run of {length}, shown")
}

fn on_range(called: &str, range: &str) -> String {
    format!("{called} with {range}, shown")
}

fn would_go_on(called: &str) -> String {
    format!("{called} of a pair in range in which a tick moves more than tallies, shown")
}

fn stands(called: &str) -> String {
    format!("{called} of a pair in range in which a tick moves tallies alone, shown")
}

fn answer(levels: u32) -> String {
    format!("tick that answers {levels}")
}

fn by_end(call: &str) -> String {
    format!("chip's call: {call}, by end")
}
