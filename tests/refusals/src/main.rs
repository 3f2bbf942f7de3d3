//! refusals table                          prints the table of the wrong programs
//! refusals check SCRATCH [CRATE[/EDIT]..]  checks each edited crate, or these, in copies below the folder SCRATCH, and holds the logs to the edits' lines
//! Both end with 1 where an edit's lines are not of their form, and `check` where a log does not show what they say. A log is left below target/refusals.

use refusals::check::Lane;
use refusals::project::{edits, table, Edit};
use std::path::{Path, PathBuf};
use std::process::ExitCode;
use std::sync::atomic::{AtomicUsize, Ordering};
use std::sync::Mutex;

fn failed(lines: &[String]) -> ExitCode {
    for line in lines {
        eprintln!("refusals: {line}");
    }
    ExitCode::FAILURE
}

/// As many at once as there are processors, and 2 GB for each; or as REFUSALS_AT_ONCE says.
fn lanes() -> usize {
    let said = std::env::var("REFUSALS_AT_ONCE").ok();
    let said = said.and_then(|number| number.parse().ok());
    let found = || {
        let memory = std::fs::read_to_string("/proc/meminfo").unwrap_or_default();
        let free = memory
            .lines()
            .find_map(|line| line.strip_prefix("MemAvailable:"));
        let kilobytes = free.and_then(|it| it.trim().split(' ').next()?.parse::<usize>().ok());
        let processors = std::thread::available_parallelism().map_or(1, usize::from);
        processors.min(kilobytes.map_or(processors, |it| it / 2_000_000))
    };
    said.unwrap_or_else(found).max(1)
}

/// What the logs of these edits do not show, in the edits' order.
fn checked(root: &Path, scratch: &Path, edits: &[&Edit]) -> Vec<String> {
    // those with most wrong programs take longest
    let mut order: Vec<usize> = (0..edits.len()).collect();
    order.sort_by_key(|at| std::cmp::Reverse(edits[*at].programs.len()));
    let (next, found) = (
        AtomicUsize::new(0),
        Mutex::new(vec![Vec::new(); edits.len()]),
    );
    let work = |number: usize| -> std::io::Result<()> {
        let lane = Lane::new(root, scratch.join(number.to_string()))?;
        while let Some(at) = order.get(next.fetch_add(1, Ordering::Relaxed)) {
            let edit = edits[*at];
            let log = root.join("target/refusals").join(&edit.crate_name);
            let said = lane.tried(edit, &log.join(format!("{}.log", edit.label)));
            found.lock().unwrap()[*at] = said;
        }
        Ok(())
    };
    let broken: Vec<String> = std::thread::scope(|scope| {
        let work = &work;
        let at_once = lanes().min(edits.len());
        let all: Vec<_> = (0..at_once)
            .map(|it| scope.spawn(move || work(it)))
            .collect();
        let ended = all.into_iter().map(|it| it.join().unwrap());
        ended
            .filter_map(|it| it.err().map(|error| error.to_string()))
            .collect()
    });
    let found = found.into_inner().unwrap();
    found.into_iter().flatten().chain(broken).collect()
}

fn main() -> ExitCode {
    let root = std::env::current_dir()
        .and_then(|here| here.canonicalize())
        .unwrap_or_default();
    let all = match edits(&root) {
        Ok(all) => all,
        Err(lines) => return failed(&lines),
    };
    let words: Vec<String> = std::env::args().skip(1).collect();
    match &words[..] {
        [word] if word == "table" => print!("{}", table(&all)),
        [word, scratch, only @ ..] if word == "check" => {
            let is_asked = |edit: &&Edit| {
                let full = format!("{}/{}", edit.crate_name, edit.label);
                only.is_empty() || only.contains(&edit.crate_name) || only.contains(&full)
            };
            let asked: Vec<&Edit> = all.iter().filter(is_asked).collect();
            let lines = checked(&root, &PathBuf::from(scratch), &asked);
            if !lines.is_empty() {
                return failed(&lines);
            }
            let programs: usize = asked.iter().map(|edit| edit.programs.len()).sum();
            println!("refusals: each of the {programs} wrong programs, in {} edits, is refused where it says", asked.len());
        }
        _ => return failed(&["usage: refusals table | check SCRATCH [CRATE[/EDIT]..]".into()]),
    }
    ExitCode::SUCCESS
}
