//! What a check said of an edited crate: which declarations were refused, and for which of them the error is their own.

use crate::check::PROBES;
use std::path::Path;

/// Why a declaration was not admitted.
#[derive(Debug, Clone, Copy, PartialEq)]
pub enum Why {
    /// an error of its own
    Own,
    /// something that it uses was not admitted
    FallsWithAnother,
    /// the edit changed the code's shape, and the proof file does not fit it: this says nothing of the fact
    Unfit,
}

/// A declaration of an .antt file below proofs/ or specs/; one whose dependents in a file were not checked, as it was not admitted itself; a
/// goal of a function that no proof file answers, at its line of src/, or by the function alone; or an error that names no declaration, as of
/// a text that cannot be read.
#[derive(Debug, Clone, PartialEq)]
pub enum Refusal {
    Declaration {
        file: String,
        name: String,
        why: Why,
    },
    Fallen {
        file: String,
        cause: String,
        names: Vec<String>,
    },
    Goal {
        file: String,
        line: usize,
        /// what is known there allows values at which it is false
        may_be_false: bool,
    },
    Open {
        function: String,
    },
    Nameless {
        line: String,
    },
}

/// What is said of a proof file whose goals, whose paths into what is known at a goal, or whose names are not those of the code.
const UNFIT: [&str; 3] = [
    "that can be named from here",
    "has no field `",
    "not in scope",
];

fn why(message: &str) -> Why {
    if UNFIT.iter().any(|words| message.contains(words)) {
        Why::Unfit
    } else {
        Why::Own
    }
}

/// `PATH:LINE:COLUMN` below the edited crate, as its file and line.
fn place(path: &str) -> Option<(String, usize)> {
    let mut parts = path.rsplitn(3, ':');
    let _column = parts.next()?;
    let line = parts.next()?.parse().ok()?;
    let file = parts.next()?;
    Some((file.strip_prefix("./").unwrap_or(file).to_string(), line))
}

/// ``N declarations that depend on `CAUSE`, which was rejected, were not checked: NAME, NAME (via NAME) and N more``: the cause and the names.
fn fallen(message: &str) -> Option<(String, Vec<String>)> {
    let (count, rest) = message.split_once(" that depend")?;
    let _number: usize = count.split_once(" declaration")?.0.parse().ok()?;
    let (cause, rest) = rest.split_once('`')?.1.split_once('`')?;
    let (_, list) = rest.split_once(" not checked: ")?;
    let list = match list.rsplit_once(" and ") {
        Some((list, rest)) if rest.ends_with(" more") => list,
        _ => list,
    };
    let names = list
        .split(", ")
        .map(|name| name.split(" (via ").next().unwrap_or_default().to_string());
    Some((cause.into(), names.collect()))
}

/// ``fn CRATE::PATH: no proof: .. `search` did not prove `GOAL`, ..``: the path. A function that only calls one with no proof has no such words.
fn open(line: &str) -> Option<String> {
    let (path, rest) = line.strip_prefix("fn ")?.split_once(": no proof: ")?;
    let is_open = rest.contains("`search` did not prove `");
    Some(path.split_once("::")?.1.to_string()).filter(|_| is_open)
}

/// The refusals of a log of `rt check`.
pub fn refusals(log: &str) -> Vec<Refusal> {
    let mut found = Vec::new();
    let lines: Vec<&str> = log.lines().collect();
    for (at, line) in lines.iter().enumerate() {
        if let Some((path, rest)) = line.split_once(": error: ") {
            // the message goes on in the lines that are set in
            let more = lines[at + 1..]
                .iter()
                .take_while(|next| next.starts_with("  "));
            let message: String = std::iter::once(rest)
                .chain(more.copied())
                .collect::<Vec<_>>()
                .join("\n");
            let named = message
                .strip_prefix('`')
                .and_then(|text| text.split_once("`:"));
            let is_unfit_import = |file: &str| {
                (file == PROBES || file.starts_with("proofs/") && file.matches('/').count() > 1)
                    && why(rest) == Why::Unfit
            };
            found.push(match (place(path), named, fallen(rest)) {
                (Some((file, _)), _, Some((cause, names))) => {
                    Refusal::Fallen { file, cause, names }
                }
                (Some((file, _)), Some((name, message)), _) => Refusal::Declaration {
                    file,
                    name: name.into(),
                    why: why(message),
                },
                // an import of a goal, or of what is private
                (Some((file, _)), None, None) if is_unfit_import(&file) => Refusal::Declaration {
                    file,
                    name: String::new(),
                    why: Why::Unfit,
                },
                _ => Refusal::Nameless {
                    line: line.to_string(),
                },
            });
        } else if line.contains(": error[") {
            found.push(Refusal::Nameless {
                line: line.to_string(),
            });
        } else if let Some(function) = open(line) {
            found.push(Refusal::Open { function });
        } else if let Some((path, rest)) = line
            .strip_prefix("note: ")
            .and_then(|note| note.split_once(": it is not proved that "))
        {
            if let Some((file, line)) = place(path) {
                found.push(Refusal::Goal {
                    file,
                    line,
                    may_be_false: rest.contains("allow values at which this goal is false"),
                });
            }
        }
    }
    found
}

/// The name of the function whose first line this is.
fn function_head(line: &str) -> Option<&str> {
    let head = line.strip_prefix("pub ").unwrap_or(line);
    let head = head.strip_prefix("extern \"C\" ").unwrap_or(head);
    head.strip_prefix("fn ")?.split(['(', '<']).next()
}

/// Whether a source file has a function or a method; a type's own conversions, in the `impl` of a trait, are none.
pub fn has_functions(source: &str) -> bool {
    source.lines().any(|line| function_head(line).is_some()) || !methods(source).is_empty()
}

/// The first and the last line of a function of a source file, or None where it has none of this name.
pub fn function_lines(source: &str, name: &str) -> Option<(usize, usize)> {
    let first = source
        .lines()
        .position(|line| function_head(line) == Some(name))?
        + 1;
    let length = source.lines().skip(first).position(|line| line == "}")?;
    Some((first, first + length + 1))
}

/// The same of a method, which stands one step in from its `impl`.
fn method_lines(source: &str, of: &str, name: &str) -> Option<(usize, usize)> {
    let start = source
        .lines()
        .position(|line| line == format!("impl {of} {{"))?
        + 1;
    let inside = || source.lines().skip(start).take_while(|line| *line != "}");
    let first = inside()
        .position(|line| line.strip_prefix("    ").and_then(function_head) == Some(name))?
        + 1;
    let length = inside().skip(first).position(|line| line == "    }")?;
    Some((start + first, start + first + length + 1))
}

/// The methods of a source file, each with its type: `Fields` and `push`.
fn methods(source: &str) -> Vec<(&str, &str)> {
    let mut of = None;
    let mut found = Vec::new();
    for line in source.lines() {
        if let Some(head) = line.strip_prefix("impl ") {
            of = head.strip_suffix(" {").filter(|name| !name.contains(' '));
        } else if line == "}" {
            of = None;
        } else if let Some(of) = of {
            found.extend(
                line.strip_prefix("    ")
                    .and_then(function_head)
                    .map(|name| (of, name)),
            );
        }
    }
    found
}

/// The functions and methods of a source file in which a line has this text, by the names that an edit gives them; none where it stands between
/// functions, as a constant does.
pub fn functions_with(source: &str, text: &str) -> Vec<String> {
    let functions = source
        .lines()
        .filter_map(function_head)
        .map(|name| (name.to_string(), function_lines(source, name)));
    let methods = methods(source)
        .into_iter()
        .map(|(of, name)| (format!("{of}::{name}"), method_lines(source, of, name)));
    let has = |lines: Option<(usize, usize)>| {
        let (first, last) = lines.unwrap_or((1, 0));
        source
            .lines()
            .take(last)
            .skip(first - 1)
            .any(|line| line.contains(text))
    };
    functions
        .chain(methods)
        .filter(|(_, lines)| has(*lines))
        .map(|(name, _)| name)
        .collect()
}

/// Where a function stands: its file of src/, and the folder of its proof files, below the crate's folder.
pub struct Function {
    pub name: String,
    pub source: String,
    pub lines: (usize, usize),
    pub proofs: String,
}

/// The function of the crate in `room` with this name; `parity::odd` is `odd` of the module `parity`, and `Fields::push` is the method of the type.
pub fn function(room: &Path, name: &str) -> Option<Function> {
    let mut path: Vec<&str> = name.split("::").collect();
    let last = path.pop()?;
    let of = path
        .last()
        .filter(|word| word.starts_with(char::is_uppercase));
    let modules = &path[..path.len() - usize::from(of.is_some())];
    let sources = if modules.is_empty() {
        vec!["src/lib.rt".into(), "src/main.rt".into()]
    } else {
        vec![format!("src/{}.rt", modules.join("/"))]
    };
    let (source, lines) = sources.into_iter().find_map(|file| {
        let text = std::fs::read_to_string(room.join(&file)).ok()?;
        let lines = match of {
            Some(of) => method_lines(&text, of, last),
            None => function_lines(&text, last),
        };
        Some((file, lines?))
    })?;
    let folder: String = path.iter().map(|part| format!("{part}/")).collect();
    // a function that calls itself has `+` before its name
    let proofs = ["+", ""]
        .map(|mark| format!("proofs/{folder}{mark}{last}"))
        .into_iter()
        .find(|folder| room.join(folder).is_dir())
        .unwrap_or_else(|| format!("proofs/{folder}{last}"));
    Some(Function {
        name: name.to_string(),
        source,
        lines,
        proofs,
    })
}

/// Whether this function was refused by an error of its own: in a proof file of its own, or at a goal that no file answers. Where an edit
/// changed the goals that its files are for, such a goal says something only if it may be false.
pub fn function_refused(function: &Function, refusals: &[Refusal]) -> bool {
    let in_files: Vec<Why> = refusals
        .iter()
        .filter_map(|refusal| match refusal {
            Refusal::Declaration { file, why, .. }
                if file.rsplit_once('/').map(|(folder, _)| folder) == Some(&function.proofs) =>
            {
                Some(*why)
            }
            _ => None,
        })
        .collect();
    let fits = !in_files.contains(&Why::Unfit);
    in_files.contains(&Why::Own)
        || refusals.iter().any(|refusal| match refusal {
            Refusal::Goal {
                file,
                line,
                may_be_false,
            } => {
                *file == function.source
                    && (function.lines.0..=function.lines.1).contains(line)
                    && (fits || *may_be_false)
            }
            Refusal::Open { function: open } => fits && *open == function.name,
            _ => false,
        })
}

/// The files of proofs/ that are no function's own.
fn law_files(room: &Path) -> Vec<(String, String)> {
    let files = std::fs::read_dir(room.join("proofs"))
        .into_iter()
        .flatten()
        .flatten()
        .map(|entry| entry.path());
    files
        .filter(|path| path.extension().is_some_and(|end| end == "antt") && !path.ends_with(PROBES))
        .filter_map(|path| {
            let stem = path.file_stem()?.to_string_lossy().into_owned();
            Some((stem, std::fs::read_to_string(path).ok()?))
        })
        .collect()
}

fn declares(line: &str, name: &str) -> bool {
    let words = line.trim_start();
    words
        .strip_prefix("pub ")
        .unwrap_or(words)
        .strip_prefix(name)
        .is_some_and(|rest| rest.starts_with(" :"))
}

/// The files of proofs/ that declare a name, once for each declaration: a name that an edit gives must be one declaration's.
pub fn declared(room: &Path, name: &str) -> Vec<String> {
    let mut found = Vec::new();
    for (stem, text) in law_files(room) {
        let times = text.lines().filter(|line| declares(line, name)).count();
        found.extend(std::iter::repeat(stem).take(times));
    }
    found
}

/// Why a declaration of a file of proofs/ that is no function's own was refused: by an error of its own, if it has one.
pub fn declaration_refused(name: &str, refusals: &[Refusal]) -> Option<Why> {
    let is_law = |file: &str| file.matches('/').count() == 1;
    let whys: Vec<Why> = refusals
        .iter()
        .filter_map(|refusal| match refusal {
            Refusal::Declaration {
                file,
                name: declared,
                why,
            } if declared == name && is_law(file) => Some(*why),
            _ => None,
        })
        .collect();
    let falls = refusals.iter().any(|refusal| match refusal {
        Refusal::Fallen { cause, names, .. } => cause == name || names.iter().any(|it| it == name),
        _ => false,
    });
    whys.iter()
        .copied()
        .find(|why| *why == Why::Own)
        .or(whys.first().copied())
        .or(falls.then_some(Why::FallsWithAnother))
}
