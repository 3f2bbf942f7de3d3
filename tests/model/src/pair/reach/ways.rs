//! What a run does on each of its two ways: what is under way when it begins and when
//! it ends, what happens in it, and what it ends beside.

use super::facts::{facts, OF_BOTH};
use super::step;
use super::ticks::{Tick, ARRIVAL, EDGES, ENDS, EVENTS};
use super::WAYS;
use crate::chip::View;
use crate::counts::Counts;
use crate::pair::Pair;
use crate::session::UNITS;

const FACTORS: [u32; 3] = [1, 16, 64];

/// One way of a run: the end that sends and the one that hears, before it and behind
/// it, and the ticks in which something happened.
pub struct Way {
    pub ticks: u32,
    pub from: [View; 2],
    pub to: [View; 2],
    times: [u32; EVENTS.len()],
    /// What happened in the last tick but one and in the last one, and would happen
    /// in the next.
    beside: [[bool; EDGES]; 3],
    /// The factors by which characters that started were sent and heard.
    factors: Vec<[u32; 2]>,
    /// The latest tick with which a frame began; 0 where none did.
    pub begun: u32,
}

/// Where a run ends: the places of `beside`, by the event's.
const BESIDE: [&str; 3] = ["one tick behind", "with", "one tick before"];

fn run_that(what: &str) -> String {
    format!("run that {what}")
}

fn by_way(what: &str) -> String {
    run_that(what) + ", by way"
}

fn happens(what: &str) -> String {
    format!("run with {what}, by way")
}

fn ends_beside(beside: &str, what: &str) -> String {
    by_way(&format!("ends {beside} {what}"))
}

fn sent_and_heard([sent, heard]: [u32; 2]) -> String {
    format!("start in a frame of {sent} ticks a bit, heard by {heard}, by way")
}

fn stands(standing: &str) -> String {
    format!("run that begins with a receiver {standing}, by way")
}

/// The same, in a run that ends the frame.
fn to_the_end(standing: &str) -> String {
    format!("run to a frame's end that begins with a receiver {standing}, by way")
}

pub fn name(counts: &mut Counts) {
    counts.name_places(WAYS, EVENTS.map(|(what, _)| happens(what)));
    for (what, _) in &EVENTS[..EDGES] {
        counts.name_places(WAYS, BESIDE.map(|beside| ends_beside(beside, what)));
    }
    counts.name_places(WAYS, facts().map(|(what, _)| by_way(what)));
    counts.name_places(WAYS, step::names().map(stands));
    counts.name_places(WAYS, step::names().map(to_the_end));
    for sent in FACTORS {
        let heard = FACTORS.map(|heard| sent_and_heard([sent, heard]));
        counts.name_places(WAYS, heard);
    }
    counts.name(OF_BOTH.map(|(what, _)| run_that(what)));
}

/// Makes a run of the pair, which is done, and counts what it does.
pub fn watch(counts: &mut Counts, pair: &mut Pair, ticks: u32) {
    let bytes = UNITS.map(|unit| pair.end_mut(unit).settled().bytes());
    let standings = [(0, 1), (1, 0)].map(|(from, to)| step::standing(&bytes[from], &bytes[to]));
    let ways = run(pair, ticks);
    for (place, (way, standing)) in ways.iter().zip(standings).enumerate() {
        way.count(counts, place);
        if let Some(standing) = standing {
            counts.count_place(&stands(standing), place);
            if way.times(ENDS) > 0 {
                counts.count_place(&to_the_end(standing), place);
            }
        }
    }
    for (what, _) in OF_BOTH.iter().filter(|(_, holds)| holds(&ways)) {
        counts.count(&run_that(what));
    }
}

fn views(pair: &Pair) -> [View; 2] {
    UNITS.map(|unit| pair.end(unit).view())
}

/// The ways of a run, tick by tick, and of the tick behind it.
pub fn run(pair: &mut Pair, ticks: u32) -> [Way; WAYS] {
    let [a, b] = views(pair);
    let mut ways = [Way::new(ticks, a, b), Way::new(ticks, b, a)];
    for at in 1..=ticks {
        tick(&mut ways, pair, at);
    }
    tick(&mut ways, &mut pair.clone(), ticks + 1);
    ways
}

fn tick(ways: &mut [Way; WAYS], pair: &mut Pair, at: u32) {
    let before = ways.each_ref().map(|way| way.from[1]);
    let levels = pair.tick();
    let after = views(pair);
    for (from, way) in ways.iter_mut().enumerate() {
        let to = 1 - from;
        let tick = Tick {
            from: [&before[from], &after[from]],
            to: [&before[to], &after[to]],
            level: levels[from],
        };
        way.take(at, &tick);
    }
}

impl Way {
    fn new(ticks: u32, from: View, to: View) -> Way {
        Way {
            ticks,
            from: [from; 2],
            to: [to; 2],
            times: [0; EVENTS.len()],
            beside: [[false; EDGES]; 3],
            factors: Vec::new(),
            begun: 0,
        }
    }

    /// The tick of a number, of which that behind the run is no part of it.
    fn take(&mut self, at: u32, tick: &Tick) {
        let happened = EVENTS.map(|(_, happens)| happens(tick));
        if at + 1 >= self.ticks {
            let place = (at + 1 - self.ticks) as usize;
            self.beside[place].copy_from_slice(&happened[..EDGES]);
        }
        if at <= self.ticks {
            for (times, happened) in self.times.iter_mut().zip(happened) {
                *times += u32::from(happened);
            }
            self.factors.extend(tick.factors());
            if tick.begins() {
                self.begun = at;
            }
            (self.from[1], self.to[1]) = (*tick.from[1], *tick.to[1]);
        }
    }

    fn count(&self, counts: &mut Counts, place: usize) {
        for (times, (what, _)) in self.times.iter().zip(EVENTS) {
            if *times > 0 {
                counts.count_place(&happens(what), place);
            }
        }
        for (happened, beside) in self.beside.iter().zip(BESIDE) {
            for (happened, (what, _)) in happened.iter().zip(EVENTS) {
                if *happened {
                    counts.count_place(&ends_beside(beside, what), place);
                }
            }
        }
        for (what, _) in facts().filter(|(_, holds)| holds(self)) {
            counts.count_place(&by_way(what), place);
        }
        for factors in &self.factors {
            counts.count_place(&sent_and_heard(*factors), place);
        }
    }

    /// Whether the tick behind it would bring a character.
    pub fn next_is_arrival(&self) -> bool {
        let place = EVENTS[..EDGES]
            .iter()
            .position(|(known, _)| *known == ARRIVAL);
        self.beside[2][place.expect("an event that a run may end beside")]
    }

    /// How many of its ticks had an event.
    pub fn times(&self, event: &str) -> u32 {
        let place = EVENTS.iter().position(|(known, _)| *known == event);
        self.times[place.expect("an event of the list")]
    }
}
