//! The test of the refusals tells a refusal at the fact from one beside it.
use refusals::check::PROBES;
use refusals::edit::programs;
use refusals::log::{declaration_refused, function, function_refused, refusals, Why};
use refusals::project::{faults, table, Edit};
use std::fs;
use std::path::PathBuf;
use std::sync::atomic::{AtomicUsize, Ordering};

const SOURCE: &str = "// a crate\nfn plain(x: u8) -> u8\n    ensures { result ≡ x }\n{\n    x + 1\n}\n\npub fn proved(x: u8) -> u8\n    ensures { result ≡ x }\n{\n    plain(x)\n}\n\nimpl Pair {\n    fn plain(&self) -> u8 {\n        0\n    }\n}\n";

/// An edited crate, in a folder of its own.
fn room(name: &str) -> PathBuf {
    static ROOMS: AtomicUsize = AtomicUsize::new(0);
    let number = ROOMS.fetch_add(1, Ordering::Relaxed);
    let name = format!("refusals-{}-{number}-{name}", std::process::id());
    let room = std::env::temp_dir().join(name);
    fs::create_dir_all(room.join("src")).unwrap();
    fs::create_dir_all(room.join("proofs/proved")).unwrap();
    fs::write(room.join("src/lib.rt"), SOURCE).unwrap();
    fs::write(room.join("proofs/proved/Answers.antt"), "").unwrap();
    fs::write(
        room.join("proofs/Laws.antt"),
        "law : A\nlaw = a\n\npub promise : A\npromise = law\n\ntwice : A\n  where\n    twice : A\n",
    )
    .unwrap();
    room
}

fn edit(text: &str) -> Edit {
    Edit {
        has_code: true,
        crate_name: "line".into(),
        label: "wrong".into(),
        programs: programs("wrong", text).unwrap(),
    }
}

/// What a log with these lines does not show.
fn said(name: &str, lines: &str, log: &str) -> Vec<String> {
    let room = room(name);
    let found = faults(
        &edit(&format!(
            "# wrong: so\n{lines}\nfile: src/lib.rt\nold: a\nnew: // a crate\n"
        )),
        &room,
        &format!("{log}logic=not-proved\n"),
    );
    fs::remove_dir_all(room).unwrap();
    found
}

const OWN: &str = "./proofs/Laws.antt:3:4: error: `law`: `omega`: the goal does not follow\n  from what it read\n";
const FALLS: &str = "./proofs/Laws.antt:9:4: error: 5 declarations that depend on `law`, which was rejected, were not checked: one, promise (via one), two and 2 more\n";
/// `promise` is not among the three that are named, and its probe is.
const PROBED: &str = "./proofs/Laws.antt:9:4: error: 5 declarations that depend on `law`, which was rejected, were not checked: one, two, three and 2 more\n./proofs/FallsWithIt.antt:7:1: error: 1 declaration that depends on `promise`, which was not admitted, was not checked: falls_0\n";

#[test]
fn a_declaration_is_refused_by_an_error_of_its_own() {
    for falls in [FALLS, PROBED] {
        assert!(said(
            "own",
            "# refused at: law\n# falls with it: promise",
            &format!("{OWN}{falls}")
        )
        .is_empty());
    }
    assert!(PROBED.contains(PROBES));
}

#[test]
fn a_declaration_that_only_falls_is_not_refused_there() {
    for falls in [FALLS, PROBED] {
        assert_eq!(
            said("falls", "# refused at: promise", &format!("{OWN}{falls}")).len(),
            1
        );
    }
    assert_eq!(
        said(
            "other",
            "# refused at: law\n# falls with it: law",
            &format!("{OWN}{FALLS}")
        )
        .len(),
        1
    );
    assert_eq!(said("absent", "# refused at: lemma", OWN).len(), 2);
    assert_eq!(
        said(
            "nothing",
            "# refused at: law\n# falls with it: promise",
            OWN
        )
        .len(),
        1
    );
}

#[test]
fn a_name_is_one_declarations() {
    assert_eq!(
        said(
            "twice",
            "# refused at: twice",
            &OWN.replace("`law`", "`twice`")
        ),
        ["line/wrong: twice is declared 2 times in proofs/"]
    );
}

const NOTE: &str =
    "it is not proved that what the function ensures holds when it returns (`returns`)";
const MAY_BE_FALSE: &str = "; the facts known there allow values at which this goal is false";
const UNFIT: &str = "./proofs/proved/Answers.antt:3:4: error: `returns-then-b`: `goal.returns-then-b`: module `Rattle.line.proofs.proved.Goals` has no `returns-then-b` that can be named from here\n";

#[test]
fn a_function_is_refused_in_its_proof_files() {
    let own = "./proofs/proved/Answers.antt:3:4: error: `returns`: the two types differ\n";
    let falls = "./proofs/proved/Answers.antt:9:4: error: 1 declaration that depends on `met`, which was not admitted, was not checked: returns\n";
    assert!(said("file", "# refused at: proved", own).is_empty());
    assert!(said("both", "# refused at: proved", &format!("{UNFIT}{own}")).is_empty());
    assert_eq!(said("falling", "# refused at: proved", falls).len(), 1);
    assert_eq!(said("beside", "# refused at: plain", own).len(), 1);
}

#[test]
fn a_function_is_refused_at_its_lines() {
    let at = |line: usize| format!("note: src/lib.rt:{line}:1: {NOTE}\n");
    assert!(said("lines", "# refused at: plain", &at(2)).is_empty());
    assert!(said("inside", "# refused at: plain", &at(5)).is_empty());
    assert_eq!(said("next", "# refused at: plain", &at(8)).len(), 1);
    assert!(said("proved", "# refused at: proved", &at(8)).is_empty());
    let calls = "fn line::plain: no proof: it calls `line::proved`, which is not proved\n";
    assert_eq!(said("calls", "# refused at: plain", calls).len(), 1);
    let open = "fn line::plain: no proof: expected answers in ./proofs/plain/Answers.antt; `search` did not prove `returns`; it calls `line::proved`, which is not proved\n";
    assert!(said("open", "# refused at: plain", open).is_empty());
    assert_eq!(said("other-open", "# refused at: proved", open).len(), 1);
}

#[test]
fn a_method_is_refused_at_its_lines() {
    let at = |line: usize| format!("note: src/lib.rt:{line}:1: {NOTE}\n");
    assert!(said("method", "# refused at: Pair::plain", &at(15)).is_empty());
    assert_eq!(said("beside", "# refused at: Pair::plain", &at(5)).len(), 1);
    assert_eq!(said("plain", "# refused at: plain", &at(15)).len(), 1);
    let open = "fn line::Pair::plain: no proof: `search` did not prove `returns`\n";
    assert!(said("open", "# refused at: Pair::plain", open).is_empty());
}

#[test]
fn a_proof_file_that_does_not_fit_the_code_shows_nothing() {
    for message in [
        "module `Rattle.line.proofs.proved.Goals` has no `returns-then-b` that can be named from here",
        "record `Rattle.line.proofs.proved.Lts.Start` has no field `if-b`",
        "`rule` is not in scope",
    ] {
        let unfit = format!("./proofs/proved/Answers.antt:3:4: error: `returns`: {message}\n");
        assert_eq!(said("unfit", "# refused at: proved", &unfit).len(), 1);
    }
    let import = "./proofs/proved/Answers.antt:3:4: error: module `Rattle.line.proofs.proved.Goals` has no `then-b` that can be named from here\n";
    assert_eq!(said("import", "# refused at: proved", import).len(), 1);
    // a goal is then open in any case, and says something where it may be false
    let note = |more: &str| format!("{UNFIT}note: src/lib.rt:8:1: {NOTE}{more}\n");
    assert_eq!(said("open", "# refused at: proved", &note("")).len(), 1);
    assert!(said("false", "# refused at: proved", &note(MAY_BE_FALSE)).is_empty());
}

#[test]
fn a_definition_that_is_refused_itself_is_told() {
    assert_eq!(
        said(
            "specs",
            "# refused at: law",
            &format!("{OWN}./specs/Rule.antt:3:4: error: `rule`: not in scope\n")
        )
        .len(),
        1
    );
    assert_eq!(said("nothing-said", "# refused at: law", "").len(), 1);
}

#[test]
fn an_error_that_names_no_declaration_is_told() {
    for line in [
        "./proofs/Laws.antt:3:4: error: this cannot be read\n",
        "./specs/Rule.antt:3:4: error: module `Rattle.line.specs.Rules` has no `rule` that can be named from here\n",
        "src/lib.rt:3:4: error[mismatched-types]: expected `u8`, found `bool`\n",
    ] {
        assert_eq!(
            said("nameless", "# refused at: law", &format!("{OWN}{line}")).len(),
            1
        );
    }
    assert_eq!(
        said(
            "scope",
            "# refused at: law",
            &OWN.replace(
                "`omega`: the goal does not follow",
                "`rule` is not in scope"
            )
        )
        .len(),
        1
    );
}

#[test]
fn a_check_ends_with_a_refusal() {
    let wrong = edit("# wrong: so\n# refused at: law\nfile: specs/Rule.antt\nold: a\nnew: b\n");
    let room = room("ends");
    for log in ["", "logic=proved functions=2\n"] {
        assert_eq!(faults(&wrong, &room, &format!("{OWN}{log}")).len(), 1);
    }
    fs::remove_dir_all(room).unwrap();
}

#[test]
fn a_wrong_body_is_refused_at_its_own_function() {
    let log = format!("note: src/lib.rt:2:1: {NOTE}\nlogic=not-proved\n");
    for (new, faulty) in [("x + 1", 0), ("plain(x)", 1), ("// a crate", 0)] {
        let room = room("body");
        let found = faults(
            &edit(
                &format!(
                    "# wrong: so\n# refused at: plain\nfile: src/lib.rt\nold: a\nnew:     {new}\n"
                )
                .replace(":     //", ": //"),
            ),
            &room,
            &log,
        );
        assert_eq!(found.len(), faulty, "{new}: {found:?}");
        fs::remove_dir_all(room).unwrap();
    }
}

#[test]
fn the_log_is_read_by_place() {
    let room = room("place");
    let found = refusals(&format!("{OWN}{FALLS}"));
    assert_eq!(declaration_refused("law", &found), Some(Why::Own));
    for name in ["one", "promise", "two"] {
        assert_eq!(
            declaration_refused(name, &found),
            Some(Why::FallsWithAnother)
        );
    }
    assert_eq!(declaration_refused("other", &found), None);
    let plain = function(&room, "plain").unwrap();
    assert_eq!(plain.lines, (2, 6));
    assert!(!function_refused(&plain, &found));
    assert!(function(&room, "parity::odd").is_none());
    fs::remove_dir_all(room).unwrap();
}

#[test]
fn an_edit_says_what_is_wrong_and_where() {
    let pair = "file: src/lib.rt\nold: a\nnew: b\n";
    let two = format!("# one: so\n# refused at: f\n{pair}\n# two: so\n# refused at: g\n{pair}");
    assert_eq!(programs("many", &two).unwrap().len(), 2);
    for (stem, text) in [
        ("x", pair.to_string()), // no wrong program
        (
            "x",
            format!("# x: so\n# refused at: f\n# falls with: g\n{pair}"),
        ), // a line of no known form
        ("many", two.replace("at: g", "at: g\n# falls with it: h")), // a promise in a gathered edit
        ("x", format!("# x: so\n{pair}")), // not where
        ("x", "# x: so\n# refused at: f\n".to_string()), // no pair
        ("y", format!("# x: so\n# refused at: f\n{pair}")), // another name
        ("many", two.replace("at: g", "at: f")), // two bodies of one function
        ("many", two.replacen("src/lib.rt", "specs/Rule.antt", 1)), // a definition in a gathered edit
    ] {
        assert!(programs(stem, &text).is_err(), "{text}");
    }
}

#[test]
fn the_table_has_a_row_for_each_wrong_program() {
    let all = [edit("# wrong: so | so\n# refused at: f, g\n# falls with it: h\nfile: specs/Rule.antt\nold: a\nnew: b\n")];
    assert!(table(&all).ends_with("| `line/wrong` | both: so \\| so | `f`, `g`; `h` with it |\n"));
    // where the crate has no code, a wrong definition stands by itself
    let bare = all.map(|edit| Edit {
        has_code: false,
        ..edit
    });
    assert!(table(&bare).ends_with("| `line/wrong` | so \\| so | `f`, `g`; `h` with it |\n"));
}

#[test]
fn a_wrong_body_names_the_method_that_it_stands_in() {
    let room = room("method");
    fs::write(
        room.join("src/lib.rt"),
        SOURCE.replace("        0\n", "        1\n"),
    )
    .unwrap();
    let says = |at: &str| {
        let text = format!(
            "# wrong: so\n# refused at: {at}\nfile: src/lib.rt\nold:         0\nnew:         1\n"
        );
        faults(&edit(&text), &room, "logic=not-proved\n")
            .iter()
            .any(|fault| fault.contains("it changes Pair::plain"))
    };
    assert!(says("proved"));
    assert!(!says("Pair::plain"));
    fs::remove_dir_all(room).unwrap();
}
