//! Counts by name: one for a name, or one for each of its places, as the channels
//! of a board and the ways of a line.

use crate::reach::conclude;
use std::collections::HashMap;
use std::process::ExitCode;

/// The least count that is enough, and that of what is dear.
const ENOUGH: u64 = 40;
const ENOUGH_DEAR: u64 = 10;

struct Named {
    name: String,
    least: u64,
    counts: Vec<u64>,
}

#[derive(Default)]
pub struct Counts {
    /// In the order in which they are reported.
    all: Vec<Named>,
    /// The place of each name there.
    places: HashMap<String, usize>,
}

impl Counts {
    /// Names that have one count.
    pub fn name<N: Into<String>>(&mut self, names: impl IntoIterator<Item = N>) {
        self.name_places(1, names);
    }

    /// The same for what is dear, of which fewer are enough.
    pub fn name_dear<N: Into<String>>(&mut self, names: impl IntoIterator<Item = N>) {
        for name in names {
            self.add(name.into(), ENOUGH_DEAR, 1);
        }
    }

    /// Names that have a count for each of some places.
    pub fn name_places<N: Into<String>>(
        &mut self,
        places: usize,
        names: impl IntoIterator<Item = N>,
    ) {
        for name in names {
            self.add(name.into(), ENOUGH, places);
        }
    }

    fn add(&mut self, name: String, least: u64, places: usize) {
        let before = self.places.insert(name.clone(), self.all.len());
        assert_eq!(before, None, "{name} stands twice");
        let counts = vec![0; places];
        self.all.push(Named {
            name,
            least,
            counts,
        });
    }

    /// Adds what another counted, whose names are the same.
    pub fn join(&mut self, other: &Counts) {
        for (mine, theirs) in self.all.iter_mut().zip(&other.all) {
            for (mine, theirs) in mine.counts.iter_mut().zip(&theirs.counts) {
                *mine += theirs;
            }
        }
    }

    fn of(&mut self, name: &str) -> &mut [u64] {
        let place = self.places.get(name);
        let place = *place.unwrap_or_else(|| panic!("no count has the name {name}"));
        &mut self.all[place].counts
    }

    pub fn count(&mut self, name: &str) {
        self.of(name)[0] += 1;
    }

    pub fn count_if(&mut self, fact: bool, name: &str) {
        if fact {
            self.count(name);
        }
    }

    pub fn count_place(&mut self, name: &str, place: usize) {
        self.of(name)[place] += 1;
    }

    /// Counts place k where bit k is set.
    pub fn count_places(&mut self, name: &str, places: u8) {
        for (place, count) in self.of(name).iter_mut().enumerate() {
            *count += u64::from(places >> place & 1);
        }
    }

    /// A line for each name, and whether all was reached often enough.
    pub fn report(&self) -> (String, bool) {
        let mut text = String::new();
        let mut whole = true;
        for named in &self.all {
            let few = named.counts.iter().any(|&count| count < named.least);
            let words: Vec<String> = named.counts.iter().map(u64::to_string).collect();
            let note = if few { " MISSING" } else { "" };
            text += &format!("{}: {}{note}\n", named.name, words.join(" "));
            whole &= !few;
        }
        (text, whole)
    }

    /// Prints the report; the status of a program that counts.
    pub fn conclude(&self) -> ExitCode {
        conclude(self.report(), &seldom())
    }
}

/// What is wrong with counts that are missing.
pub fn seldom() -> String {
    format!("reached fewer than {ENOUGH} times, or {ENOUGH_DEAR} where that is dear")
}
