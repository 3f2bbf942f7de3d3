//! Random sessions against the proved session program, whose command stands
//! behind `--`: byte for byte the same answers as the model's, and demand 3 on
//! the ways that keep its premises.

use model::delivery::judge;
use model::generate::{senders, session, Kind, KINDS, SESSIONS};
use model::program::Program;
use model::reach::{Reach, Watched};
use model::session::{answer, answer_on};
use model::shorten;
use std::process::ExitCode;
use std::thread;
use std::time::{Duration, Instant};

/// Workers, each with every so-manieth session.
const WORKERS: usize = 2;
/// Shortening ends then with what it has.
const SHORTENING: Duration = Duration::from_secs(60);

/// All sessions in order.
fn all() -> impl Iterator<Item = (Kind, u32)> {
    let of_kind = |kind| (0..SESSIONS).map(move |index| (kind, index));
    KINDS.into_iter().flat_map(of_kind)
}

/// What a worker reached, and the place of its first session that fails.
fn work(program: &Program, worker: usize) -> (Reach, Option<usize>) {
    let mut reach = Reach::of_sessions();
    for (place, (kind, index)) in all().enumerate().skip(worker).step_by(WORKERS) {
        if !passes(program, kind, index, &mut reach) {
            return (reach, Some(place));
        }
    }
    (reach, None)
}

fn passes(program: &Program, kind: Kind, index: u32, reach: &mut Reach) -> bool {
    let input = session(kind, index);
    let expected = answer_on(&mut Watched::new(reach), &input);
    reach.session(&input, &expected);
    match judge(&input, &expected, &senders(kind, index)) {
        Ok(names) => reach.delivered(&names),
        Err(_) => return false,
    }
    program.answer(&input).as_deref() == Ok(&expected)
}

/// Why a session fails.
fn explain(program: &Program, kind: Kind, index: u32) -> String {
    let input = session(kind, index);
    let why = match judge(&input, &answer(&input), &senders(kind, index)) {
        Err(fault) => format!("the model breaks demand 3: {fault}\n"),
        Ok(_) => explain_difference(program, &input),
    };
    format!("{kind:?} session of seed {index}: {why}")
}

/// The shortest session that differs, and both answers to it.
fn explain_difference(program: &Program, input: &[u8]) -> String {
    let until = Instant::now() + SHORTENING;
    let differs = |input: &[u8]| {
        Instant::now() < until && program.answer(input).as_deref() != Ok(&answer(input))
    };
    let shortest = shorten::session(input, differs);
    let got = match program.answer(&shortest) {
        Ok(answer) => visible(&answer),
        Err(why) => format!("  {why}\n"),
    };
    format!(
        "the program and the model differ\nsession:\n{}model:\n{}program:\n{got}",
        visible(&shortest),
        visible(&answer(&shortest)),
    )
}

/// Lines with tabs and other bytes that do not print made visible.
fn visible(text: &[u8]) -> String {
    let lines = text.split_inclusive(|&byte| byte == b'\n');
    lines
        .map(|line| format!("  {}\n", line.escape_ascii()))
        .collect()
}

fn main() -> ExitCode {
    let program = match Program::of_arguments() {
        Ok(program) => program,
        Err(usage) => {
            eprintln!("random_sessions: {usage}");
            return ExitCode::from(2);
        }
    };
    let worked: Vec<_> = thread::scope(|scope| {
        let program = &program;
        let workers: Vec<_> = (0..WORKERS)
            .map(|worker| scope.spawn(move || work(program, worker)))
            .collect();
        workers
            .into_iter()
            .map(|worker| worker.join().expect("no panic"))
            .collect()
    });
    let mut reach = Reach::of_sessions();
    worked.iter().for_each(|(reached, _)| reach.add(reached));
    // The first one of all, so that two runs say the same.
    let failed = worked.iter().filter_map(|(_, place)| *place).min();
    if let Some((kind, index)) = failed.and_then(|place| all().nth(place)) {
        print!("random_sessions: {}", explain(&program, kind, index));
        return ExitCode::FAILURE;
    }
    println!(
        "random_sessions: {} sessions are answered alike",
        all().count()
    );
    reach.conclude()
}
