//! A C driver held to the model, line by line: where its answers to a run first
//! differ, and the shortest run that shows it.

use crate::program::Program;
use crate::shorten::shorten;
use std::fmt::Display;
use std::process::ExitCode;
use std::time::{Duration, Instant};

/// Shortening ends then with what it has.
const SHORTENING: Duration = Duration::from_secs(60);

/// A line that is entered to a driver.
pub trait Entry: Clone + Display {
    /// What a driver keeps between its lines.
    type Model;

    /// The model of a driver that starts.
    fn start() -> Self::Model;

    /// What the line answers.
    fn answer(&self, model: &mut Self::Model) -> String;

    /// Whether a run may begin with it.
    fn may_begin(&self) -> bool {
        true
    }

    /// Whether it is a call, and not one that sets or shows what calls are made on.
    fn is_call(&self) -> bool;

    /// The line with one number smaller.
    fn simpler(&self) -> Vec<Self>;
}

/// A driver's input for some lines.
pub fn text<E: Entry>(lines: &[E]) -> String {
    lines.iter().map(|line| format!("{line}\n")).collect()
}

/// Where a driver's answers first differ from the model's.
#[derive(Debug, PartialEq, Eq)]
pub struct Difference {
    /// From 0; the number of lines where the driver answers too much.
    pub line: usize,
    pub model: String,
    pub driver: String,
}

/// The first difference between the model and a driver's whole output for some lines.
pub fn difference<E: Entry>(lines: &[E], output: &str) -> Option<Difference> {
    const NOTHING: &str = "no line";
    let mut kept = E::start();
    let mut answers = output.split_terminator('\n');
    for (place, line) in lines.iter().enumerate() {
        let model = line.answer(&mut kept);
        let driver = answers.next().unwrap_or(NOTHING);
        if model != driver {
            return Some(Difference {
                line: place,
                model,
                driver: driver.to_string(),
            });
        }
    }
    answers.next().map(|further| Difference {
        line: lines.len(),
        model: NOTHING.to_string(),
        driver: further.to_string(),
    })
}

/// The shortest run found that still differs.
pub fn shortest<E: Entry>(lines: &[E], differs: impl Fn(&[E]) -> bool) -> Vec<E> {
    let differs = |lines: &[E]| lines.first().is_some_and(E::may_begin) && differs(lines);
    shorten(lines.to_vec(), E::simpler, differs)
}

/// What a driver answers to some lines, by what it keeps between them.
pub fn output<E: Entry>(mut kept: E::Model, lines: &[E]) -> String {
    lines
        .iter()
        .map(|line| line.answer(&mut kept) + "\n")
        .collect()
}

/// The shortest run that shows a wrong driver, by how it starts, from the first of some
/// runs that does; none where all are answered as by the model.
pub fn found<E: Entry>(
    mut runs: impl Iterator<Item = Vec<E>>,
    start: impl Fn() -> E::Model,
) -> Option<Vec<E>> {
    let wrong = |lines: &[E]| difference(lines, &output(start(), lines));
    let first = runs.find(|lines| wrong(lines).is_some())?;
    let until = wrong(&first).map_or(0, |difference| difference.line);
    Some(shortest(&first[..=until], |lines| wrong(lines).is_some()))
}

/// How a driver's answers to some lines differ from the model's, if they do.
fn compare<E: Entry>(driver: &Program, lines: &[E]) -> Option<String> {
    let output = match driver.answer(text(lines).as_bytes()) {
        Ok(output) => output,
        Err(why) => return Some(why),
    };
    let difference = difference(lines, &String::from_utf8_lossy(&output))?;
    Some(format!(
        "line {}: the model answers \"{}\", the driver \"{}\"",
        difference.line + 1,
        difference.model.escape_debug(),
        difference.driver.escape_debug(),
    ))
}

/// The shortest run that differs, and how.
fn explain<E: Entry>(driver: &Program, lines: &[E]) -> String {
    let until = Instant::now() + SHORTENING;
    let differs = |lines: &[E]| Instant::now() < until && compare(driver, lines).is_some();
    let shortest = shortest(lines, differs);
    let why = compare(driver, &shortest).unwrap_or("it does not differ again".to_string());
    format!("{}{why}\n", text(&shortest))
}

/// Runs in the order of their seeds against the driver that this program's arguments
/// name; each is watched once it is answered as by the model. Where one is not, or there
/// is no driver, that is said, and the error is the status to end with.
pub fn test<E: Entry>(
    name: &str,
    runs: impl Iterator<Item = Vec<E>>,
    mut watch: impl FnMut(&[E]),
) -> Result<(), ExitCode> {
    let driver = Program::of_arguments().map_err(|usage| {
        eprintln!("{name}: {usage}");
        ExitCode::from(2)
    })?;
    let (mut done, mut calls, mut entered) = (0, 0, 0);
    for lines in runs {
        if compare(&driver, &lines).is_some() {
            let shortest = explain(&driver, &lines);
            print!("{name}: the driver and the model differ in the run of seed {done}\n{shortest}");
            return Err(ExitCode::FAILURE);
        }
        watch(&lines);
        done += 1;
        calls += lines.iter().filter(|line| line.is_call()).count();
        entered += lines.len();
    }
    println!("{name}: {done} runs are answered alike");
    println!("calls: {calls}, lines: {entered}");
    Ok(())
}
