//! The check of an edited crate, as `rt ci` leaves no log of it: in a scratch copy of the repository, over what `rt all check` kept.

use crate::edit::Pair;
use crate::log::declared;
use crate::project::{faults, Edit};
use std::fs;
use std::io;
use std::path::{Path, PathBuf};
use std::process::{Command, Stdio};

/// The file of proofs/ that is put beside an edit's: a declaration there for each promise that is to fall with it. A check names a few of
/// the declarations that fall with another, and of another file those that the falling ones are used in.
pub const PROBES: &str = "proofs/FallsWithIt.antt";

/// What a check reads of a crate.
const PARTS: [&str; 3] = ["src", "specs", "proofs"];

/// A scratch copy of the repository, with its built libraries, in which one edited crate at a time is checked.
pub struct Lane {
    root: PathBuf,
    to: PathBuf,
}

/// Copies a folder; files that a check replaces and never writes into are linked, where they can be.
fn copy(from: &Path, to: &Path, links: impl Fn(&Path) -> bool + Copy) -> io::Result<()> {
    fs::create_dir_all(to)?;
    for entry in fs::read_dir(from)? {
        let (path, kind) = entry.map(|it| (it.path(), it.file_type()))?;
        let to = to.join(path.file_name().unwrap_or_default());
        if kind?.is_dir() {
            copy(&path, &to, links)?;
        } else if !links(&path) || fs::hard_link(&path, &to).is_err() {
            fs::copy(&path, &to)?;
        }
    }
    Ok(())
}

fn crates(root: &Path) -> io::Result<Vec<String>> {
    let list = fs::read_to_string(root.join("crates.txt"))?;
    let names = list
        .lines()
        .filter_map(|line| line.split(['#', ':']).next()?.split_whitespace().next());
    Ok(names.map(str::to_string).collect())
}

impl Lane {
    pub fn new(root: &Path, to: PathBuf) -> io::Result<Lane> {
        let lane = Lane {
            root: root.to_path_buf(),
            to,
        };
        fs::create_dir_all(&lane.to)?;
        fs::copy(root.join("crates.txt"), lane.to.join("crates.txt"))?;
        for name in crates(root)? {
            lane.put_back(&name)?;
            let built = Path::new("crates").join(name).join("out/rlib");
            if root.join(&built).is_dir() {
                copy(&root.join(&built), &lane.to.join(&built), |_| true)?;
            }
        }
        Ok(lane)
    }

    fn put_back(&self, name: &str) -> io::Result<()> {
        for part in PARTS {
            let inside = Path::new("crates").join(name).join(part);
            let _ = fs::remove_dir_all(self.to.join(&inside));
            if self.root.join(&inside).is_dir() {
                copy(&self.root.join(&inside), &self.to.join(&inside), |_| false)?;
            }
        }
        Ok(())
    }

    /// Checks the crate with this edit, leaves the log, and returns what that does not show of what the edit's lines say.
    pub fn tried(&self, edit: &Edit, log: &Path) -> Vec<String> {
        let full = format!("{}/{}", edit.crate_name, edit.label);
        let folder = self.to.join("crates").join(&edit.crate_name);
        let said = self.edited(edit, &folder).and_then(|()| {
            let ran = checked(&folder)?;
            fs::create_dir_all(log.parent().unwrap_or(log))?;
            fs::write(log, &ran)?;
            Ok(ran)
        });
        let found = match said {
            Ok(said) => faults(edit, &folder, &said),
            Err(error) => vec![format!("{full}: {error}")],
        };
        match self.put_back(&edit.crate_name) {
            Ok(()) => found,
            Err(error) => vec![format!("{full}: {error}")],
        }
    }

    fn edited(&self, edit: &Edit, folder: &Path) -> io::Result<()> {
        self.put_back(&edit.crate_name)?;
        let kept = Path::new("crates")
            .join(&edit.crate_name)
            .join("out/incremental");
        let _ = fs::remove_dir_all(self.to.join(&kept));
        if !self.root.join(&kept).is_dir() {
            let why = "nothing is kept of its crate: tools/kept comes first";
            return Err(io::Error::new(io::ErrorKind::NotFound, why));
        }
        copy(&self.root.join(&kept), &self.to.join(&kept), |path| {
            path.extension().is_some_and(|end| end == "oantt")
        })?;
        for pair in edit.programs.iter().flat_map(|program| &program.pairs) {
            put(folder, pair)?;
        }
        let falls: Vec<&String> = edit.programs.iter().flat_map(|it| &it.falls).collect();
        probe(&edit.crate_name, folder, &falls)
    }
}

fn put(folder: &Path, Pair { file, old, new }: &Pair) -> io::Result<()> {
    let path = folder.join(file);
    let text = fs::read_to_string(&path)?;
    match text.matches(old.as_str()).count() {
        1 if !old.is_empty() => fs::write(&path, text.replace(old.as_str(), new)),
        times => Err(io::Error::new(
            io::ErrorKind::InvalidData,
            format!("'{old}' stands {times} times in {file}, and not once"),
        )),
    }
}

fn probe(crate_name: &str, folder: &Path, falls: &[&String]) -> io::Result<()> {
    if falls.is_empty() {
        return Ok(());
    }
    let (mut uses, mut probes) = (String::new(), String::new());
    for (at, name) in falls.iter().enumerate() {
        for module in declared(folder, name) {
            uses += &format!("use Rattle.{crate_name}.proofs.{module}.{{{name}}}\n");
        }
        probes += &format!("\nfalls_{at} : ℕ\nfalls_{at} = uses_it {name}\n");
    }
    let uses_it = "\nuses_it : {A : Type 0} → A → ℕ\nuses_it _ = 0\n";
    fs::write(
        folder.join(PROBES),
        format!("use Rattle.std.proofs.Common.{{ℕ}}\n{uses}{uses_it}{probes}"),
    )?;
    let root = folder.join("proofs/Lib.antt");
    let text = fs::read_to_string(&root)?;
    fs::write(root, format!("{text}mod FallsWithIt\n"))
}

fn checked(folder: &Path) -> io::Result<String> {
    let ran = Command::new("rt")
        .args(["check", "--jobs", "1"])
        .current_dir(folder)
        .stdin(Stdio::null())
        .output()?;
    let mut said = String::from_utf8_lossy(&ran.stdout).into_owned();
    said += &String::from_utf8_lossy(&ran.stderr);
    Ok(said)
}
