//! The edits of a project, what the logs of their checks show, and the table of `docs/PROMISES.md`.

use crate::edit::{programs, Pair, Program};
use crate::log::{
    declaration_refused, declared, function, function_refused, functions_with, has_functions,
    refusals, Refusal, Why,
};
use std::collections::BTreeMap;
use std::fs;
use std::path::{Path, PathBuf};

/// An edit: its crate, whether that has code, its label and its wrong programs.
pub struct Edit {
    pub crate_name: String,
    pub has_code: bool,
    pub label: String,
    pub programs: Vec<Program>,
}

fn sorted(folder: &Path) -> Vec<PathBuf> {
    let mut paths: Vec<PathBuf> = fs::read_dir(folder)
        .map(|all| all.flatten().map(|entry| entry.path()).collect())
        .unwrap_or_default();
    paths.sort();
    paths
}

fn stem(path: &Path) -> String {
    path.file_stem()
        .unwrap_or_default()
        .to_string_lossy()
        .into_owned()
}

/// Whether a crate has a function: one with definitions, laws and structs alone has none.
fn has_code(folder: &Path) -> bool {
    sorted(&folder.join("src"))
        .iter()
        .any(|file| has_functions(&fs::read_to_string(file).unwrap_or_default()))
}

/// Every edit below crates/, or what is wrong with their lines.
pub fn edits(root: &Path) -> Result<Vec<Edit>, Vec<String>> {
    let (mut found, mut faults) = (Vec::new(), Vec::new());
    for folder in sorted(&root.join("crates")) {
        let mut named: BTreeMap<String, String> = BTreeMap::new();
        let has_code = has_code(&folder);
        for file in sorted(&folder.join("must-fail")) {
            let (crate_name, label) = (stem(&folder), stem(&file));
            let text = fs::read_to_string(&file).unwrap_or_default();
            match programs(&label, &text) {
                Ok(programs) => {
                    for program in &programs {
                        if let Some(other) = named.insert(program.name.clone(), label.clone()) {
                            faults.push(format!(
                                "{crate_name}/{}: both {other}.edit and {label}.edit have it",
                                program.name
                            ));
                        }
                    }
                    found.push(Edit {
                        crate_name,
                        has_code,
                        label,
                        programs,
                    });
                }
                Err(fault) => faults.push(format!("{crate_name}/{label}.edit: {fault}")),
            }
        }
    }
    if faults.is_empty() {
        Ok(found)
    } else {
        Err(faults)
    }
}

/// What the log of an edit does not show of what its lines say; `room` is the edited crate.
pub fn faults(edit: &Edit, room: &Path, log: &str) -> Vec<String> {
    let all = refusals(log);
    let full = format!("{}/{}", edit.crate_name, edit.label);
    match log.lines().rev().find(|line| line.starts_with("logic=")) {
        Some("logic=not-proved") => {}
        Some(_) => return vec![format!("{full}: it is proved")],
        None => {
            return vec![format!(
                "{full}: its check came to no end; its log says why"
            )]
        }
    }
    let mut faults = Vec::new();
    for refusal in &all {
        match refusal {
            Refusal::Declaration { file, name, .. } if file.starts_with("specs/") => {
                faults.push(format!(
                    "{full}: the definition {name} itself is refused, in {file}"
                ));
            }
            Refusal::Nameless { line } => faults.push(format!(
                "{full}: an error that names no declaration: {line}"
            )),
            _ => {}
        }
    }
    for program in &edit.programs {
        let full = format!("{}/{}", edit.crate_name, program.name);
        faults.extend(elsewhere(program, room).into_iter().map(|other| {
            format!("{full}: it changes {other}, and does not say that it is refused there")
        }));
        for name in program
            .refused
            .iter()
            .filter(|name| function(room, name).is_none())
            .chain(&program.falls)
        {
            let times = declared(room, name).len();
            if times != 1 {
                faults.push(format!(
                    "{full}: {name} is declared {times} times in proofs/"
                ));
            }
        }
        for name in &program.refused {
            let own = match function(room, name) {
                Some(function) => function_refused(&function, &all),
                None => declaration_refused(name, &all) == Some(Why::Own),
            };
            if !own {
                faults.push(format!(
                    "{full}: the log shows no error of its own at {name}"
                ));
            }
        }
        for name in &program.falls {
            if declaration_refused(name, &all) != Some(Why::FallsWithAnother) {
                faults.push(format!(
                    "{full}: {name} does not fall with it, or has an error of its own"
                ));
            }
        }
    }
    faults
}

/// A function that a wrong body stands in and that the program does not name, where code alone is wrong.
fn elsewhere(program: &Program, room: &Path) -> Option<String> {
    let code = program
        .pairs
        .iter()
        .filter(|pair| pair.file.starts_with("src/") && !program.is_alike());
    for Pair { file, new, .. } in code {
        let module = file.trim_start_matches("src/").trim_end_matches(".rt");
        let path = if ["lib", "main"].contains(&module) {
            String::new()
        } else {
            format!("{module}::")
        };
        let source = fs::read_to_string(room.join(file)).unwrap_or_default();
        let inside: Vec<String> = functions_with(&source, new)
            .iter()
            .map(|name| format!("{path}{name}"))
            .collect();
        if !inside.is_empty() && !inside.iter().any(|name| program.refused.contains(name)) {
            return Some(inside.join(", "));
        }
    }
    None
}

fn code(names: &[String]) -> String {
    names
        .iter()
        .map(|name| format!("`{name}`"))
        .collect::<Vec<_>>()
        .join(", ")
}

/// The table of every wrong program, as it stands in docs/PROMISES.md.
pub fn table(edits: &[Edit]) -> String {
    let mut rows: Vec<String> = Vec::new();
    for edit in edits {
        for program in &edit.programs {
            let mut at = code(&program.refused);
            if !program.falls.is_empty() {
                at = format!("{at}; {} with it", code(&program.falls));
            }
            // where the crate has no code, a wrong definition stands by itself
            let kind = if program.is_alike() && edit.has_code {
                "both: "
            } else {
                ""
            };
            rows.push(format!(
                "| `{}/{}` | {kind}{} | {at} |\n",
                edit.crate_name,
                program.name,
                program.wrong.replace('|', "\\|")
            ));
        }
    }
    rows.sort();
    format!(
        "| wrong program | what is wrong | refused at |\n|---|---|---|\n{}",
        rows.concat()
    )
}
