//! A must-fail edit: its wrong programs, in the lines that `rt` passes over.
//!
//! ```text
//! # NAME: what is wrong
//! # refused at: NAME, NAME
//! # falls with it: NAME, NAME
//! file: src/lib.rt
//! old: ..
//! new: ..
//! ```
//!
//! `refused at` names functions and declarations of proofs/, each refused by an error of its own; `falls with it` promises that were not
//! admitted because they rest on these. Several wrong programs, each with its own lines above its pairs, are wrong bodies of different functions.

use std::collections::HashSet;

/// One wrong program.
#[derive(Debug, Default, Clone, PartialEq)]
pub struct Program {
    pub name: String,
    pub wrong: String,
    pub refused: Vec<String>,
    pub falls: Vec<String>,
    pub pairs: Vec<Pair>,
}

/// A text of a file, and what is put there.
#[derive(Debug, Clone, PartialEq)]
pub struct Pair {
    pub file: String,
    pub old: String,
    pub new: String,
}

impl Program {
    /// An edit of the definitions too, or of them alone: a promise refuses it.
    pub fn is_alike(&self) -> bool {
        self.pairs
            .iter()
            .any(|pair| pair.file.starts_with("specs/"))
    }
}

fn names(list: &str) -> Vec<String> {
    list.split(',')
        .map(|name| name.trim().to_string())
        .filter(|name| !name.is_empty())
        .collect()
}

/// `NAME: what is wrong`, where NAME is a word of small letters, digits and `_`.
fn heading(comment: &str) -> Option<(&str, &str)> {
    let (name, wrong) = comment.split_once(": ")?;
    let is_name = !name.is_empty()
        && name
            .chars()
            .all(|c| c.is_ascii_lowercase() || c.is_ascii_digit() || c == '_');
    is_name.then_some((name, wrong))
}

/// The wrong programs of an edit whose file is STEM.edit, or what is wrong with its lines.
pub fn programs(stem: &str, text: &str) -> Result<Vec<Program>, String> {
    let mut found: Vec<Program> = Vec::new();
    let (mut file, mut old) = (String::new(), String::new());
    for line in text.lines() {
        let none = || format!("no '# NAME: what is wrong' stands above '{line}'");
        if let Some(list) = line.strip_prefix("# refused at: ") {
            found
                .last_mut()
                .ok_or_else(none)?
                .refused
                .extend(names(list));
        } else if let Some(list) = line.strip_prefix("# falls with it: ") {
            found.last_mut().ok_or_else(none)?.falls.extend(names(list));
        } else if let Some(comment) = line.strip_prefix('#') {
            let (name, wrong) =
                heading(comment.trim()).ok_or_else(|| format!("'{line}' is of no known form"))?;
            found.push(Program {
                name: name.into(),
                wrong: wrong.into(),
                ..Program::default()
            });
        } else if let Some(named) = line.strip_prefix("file: ") {
            file = named.trim().to_string();
        } else if let Some(text) = line.strip_prefix("old: ") {
            old = text.to_string();
        } else if let Some(new) = line.strip_prefix("new:") {
            found.last_mut().ok_or_else(none)?.pairs.push(Pair {
                file: file.clone(),
                old: std::mem::take(&mut old),
                new: new.strip_prefix(' ').unwrap_or(new).to_string(),
            });
        }
    }
    fit(stem, &found)?;
    Ok(found)
}

fn fit(stem: &str, found: &[Program]) -> Result<(), String> {
    if found.is_empty() {
        return Err("it names no wrong program".into());
    }
    for program in found {
        let name = &program.name;
        if program.refused.is_empty() {
            return Err(format!("{name} does not say where it is refused"));
        }
        if program.pairs.is_empty() {
            return Err(format!("{name} has no 'old:' and 'new:' pair"));
        }
        if found.len() == 1 && name != stem {
            return Err(format!("its one wrong program is called {name}"));
        }
        if found.len() > 1 && (program.is_alike() || !program.falls.is_empty()) {
            return Err(format!(
                "{name} is refused by laws, so it is an edit of its own"
            ));
        }
    }
    let mut seen = HashSet::new();
    for name in found.iter().flat_map(|program| &program.refused) {
        if !seen.insert(name) {
            return Err(format!("two of its wrong programs are refused at {name}"));
        }
    }
    Ok(())
}
