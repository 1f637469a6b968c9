//! The documents name only what there is, count the lines of the definition files right, and leave out no
//! public function and no must-fail edit. No public function is left out of the law that it promises one
//! outcome, and the exports say what the library says.
#![deny(warnings)]

use std::fs;
use std::path::{Path, PathBuf};

const DOCUMENTS: [&str; 10] = [
    "README.md",
    "docs/API.md",
    "docs/BENCHMARKS.md",
    "docs/DECISIONS.md",
    "docs/HOST.md",
    "docs/LAYOUT.md",
    "docs/MAP.md",
    "docs/RULED_OUT.md",
    "docs/TAPE.md",
    "docs/TRUST.md",
];

fn root() -> PathBuf {
    Path::new(env!("CARGO_MANIFEST_DIR")).join("..")
}

fn read(path: &str) -> String {
    fs::read_to_string(root().join(path)).unwrap_or_else(|e| panic!("{path}: {e}"))
}

/// The names of what lies in a folder, in order; none where there is no such folder.
fn names_in(path: &str) -> Vec<String> {
    let Ok(folder) = fs::read_dir(root().join(path)) else {
        return Vec::new();
    };
    let mut names: Vec<String> = folder
        .map(|entry| entry.unwrap().file_name().into_string().unwrap())
        .collect();
    names.sort();
    names
}

/// The crates that have a library.
fn libraries() -> Vec<String> {
    let mut crates = names_in("crates");
    crates.retain(|name| root().join(format!("crates/{name}/src/lib.rt")).exists());
    crates
}

fn source(library: &str) -> String {
    read(&format!("crates/{library}/src/lib.rt"))
}

/// A document without its blocks of code.
fn prose(document: &str) -> String {
    let text = read(document);
    text.split("\n```").step_by(2).collect()
}

/// What stands between backquotes, with the document that has it.
fn quoted() -> Vec<(&'static str, String)> {
    let mut spans = Vec::new();
    for document in DOCUMENTS {
        let text = prose(document);
        for span in text.split('`').skip(1).step_by(2) {
            spans.push((document, span.to_string()));
        }
    }
    spans
}

/// Whether it could be the label of an edit: files and folders of a crate have other names.
fn is_label(text: &str) -> bool {
    let small = |c: char| c.is_ascii_lowercase() || c.is_ascii_digit() || c == '_';
    text.chars().all(small) && !["src", "specs", "proofs", "stdin"].contains(&text)
}

/// Whether a name stands in a text, not as a part of a longer one.
fn has_word(text: &str, word: &str) -> bool {
    let inside = |c: char| c.is_alphanumeric() || "_-'".contains(c);
    text.match_indices(word).any(|(at, _)| {
        let before = text[..at].chars().next_back();
        let after = text[at + word.len()..].chars().next();
        !before.is_some_and(inside) && !after.is_some_and(inside)
    })
}

/// Files and folders, but for those that stand for many or that a run makes.
#[test]
fn paths_named_are_there() {
    let mut seen = 0;
    for (document, span) in quoted() {
        let path = span.split(' ').next().unwrap();
        let ours = ["crates/", "docs/", "examples/", "host/", ".ci/"];
        if path.contains('*') || !ours.iter().any(|folder| path.starts_with(folder)) {
            continue;
        }
        assert!(root().join(path).exists(), "{document}: {path}");
        seen += 1;
    }
    assert!(seen > 50, "{seen}");
}

/// A name such as `Timer::pulse` or `run::run` is of a function, a constant or a case of ours.
#[test]
fn paths_of_functions_lead_there() {
    let texts: Vec<(String, String)> = libraries()
        .into_iter()
        .map(|library| (library.clone(), source(&library)))
        .collect();
    let mut seen = 0;
    for (document, span) in quoted() {
        let Some((owner, name)) = span.split_once("::") else {
            continue;
        };
        let plain = |text: &str| text.chars().all(|c| c.is_alphanumeric() || c == '_');
        if !plain(owner) || !plain(name) {
            continue;
        }
        let declares = |text: &str| {
            ["fn ", "const ", "struct ", "enum "]
                .iter()
                .any(|kind| text.contains(&format!("{kind}{name}")))
        };
        let has_owner = |text: &str| {
            ["struct ", "enum ", "impl "]
                .iter()
                .any(|kind| has_word(text, &format!("{kind}{owner}")))
        };
        let mut of_us = texts.iter().filter(|(library, text)| {
            library == owner || (has_owner(text) && owner.starts_with(char::is_uppercase))
        });
        let mut met = false;
        let here = of_us.any(|(_, text)| {
            met = true;
            declares(text) || has_word(text, name)
        });
        assert!(here || !met, "{document}: {span}");
        seen += usize::from(met);
    }
    assert!(seen > 40, "{seen}");
}

/// As `rt must-fail` wants it: each text that an edit replaces stands once in its file. It is replaced by another.
#[test]
fn edits_apply() {
    let mut seen = 0;
    for owner in names_in("crates") {
        for edit in names_in(&format!("crates/{owner}/must-fail")) {
            let edit = format!("crates/{owner}/must-fail/{edit}");
            let before = seen;
            let (mut file, mut text, mut old) = (String::new(), String::new(), String::new());
            for line in read(&edit).lines() {
                if let Some(name) = line.strip_prefix("file: ") {
                    file = name.to_string();
                    text = read(&format!("crates/{owner}/{file}"));
                } else if let Some(words) = line.strip_prefix("old: ") {
                    old = words.to_string();
                } else if let Some(new) = line.strip_prefix("new:") {
                    let new = new.strip_prefix(' ').unwrap_or(new);
                    assert_eq!(text.matches(&old).count(), 1, "{edit}: {file}: {old}");
                    assert_ne!(old, new, "{edit}: {file}");
                    text = text.replace(&old, new);
                    seen += 1;
                }
            }
            assert!(seen > before, "{edit}: it replaces nothing");
        }
    }
    assert!(seen > 100, "{seen}");
}

#[test]
fn functions_named_are_there() {
    let mut seen = 0;
    for (document, span) in quoted() {
        let Some((library, path)) = span.strip_prefix("fn ").and_then(|s| s.split_once(": "))
        else {
            continue;
        };
        let name = path.rsplit("::").next().unwrap();
        let text = source(library);
        let here = ['(', '<'].map(|open| text.contains(&format!("fn {name}{open}")));
        assert!(here.contains(&true), "{document}: {span}");
        seen += 1;
    }
    assert!(seen > 50, "{seen}");
}

#[test]
fn definitions_and_theorems_named_are_there() {
    let mut seen = 0;
    for (document, span) in quoted() {
        let Some((place, names)) = span.split_once(": ") else {
            continue;
        };
        let Some((library, file)) = place.split_once('/') else {
            continue;
        };
        let path = match file.strip_prefix("proofs/") {
            Some(file) => format!("crates/{library}/proofs/{file}.antt"),
            None => format!("crates/{library}/specs/{file}.antt"),
        };
        let text = read(&path);
        for name in names.split(", ") {
            assert!(has_word(&text, name), "{document}: {name} of {span}");
            seen += 1;
        }
    }
    assert!(seen > 200, "{seen}");
}

#[test]
fn edits_named_are_there_and_all_are_listed() {
    let crates = names_in("crates");
    let mut seen = 0;
    for (document, span) in quoted() {
        let Some((library, edit)) = span.split_once('/') else {
            continue;
        };
        if !is_label(edit) || !crates.iter().any(|name| name == library) {
            continue;
        }
        let edits = names_in(&format!("crates/{library}/must-fail"));
        assert!(
            edits.contains(&format!("{edit}.edit")),
            "{document}: {span}"
        );
        seen += 1;
    }
    let listed = read("docs/RULED_OUT.md");
    for library in crates {
        for file in names_in(&format!("crates/{library}/must-fail")) {
            let label = format!("`{library}/{}`", file.trim_end_matches(".edit"));
            assert!(listed.contains(&label), "docs/RULED_OUT.md lacks {label}");
        }
    }
    assert!(seen > 60, "{seen}");
}

/// The public functions of a library: the path of each, as `Timer::fresh`, and the line that declares it.
fn public_functions(library: &str) -> Vec<(String, String)> {
    let mut functions = Vec::new();
    let mut owner = String::new();
    let text = source(library);
    let mut at = 0;
    for whole in text.split_inclusive('\n') {
        let line = whole.trim_end();
        if let Some(rest) = line.strip_prefix("impl ") {
            owner = rest.replace(" {", "::");
        } else if line == "}" {
            owner.clear();
        }
        let line = line.trim_start();
        if let Some(rest) = line
            .strip_prefix("pub fn ")
            .or_else(|| line.strip_prefix("pub extern \"C\" fn "))
        {
            let name = rest.split(['(', '<']).next().unwrap();
            let declared = text[at..].split('{').next().unwrap();
            functions.push((format!("{owner}{name}"), declared.to_string()));
        }
        at += whole.len();
    }
    functions
}

#[test]
fn public_functions_are_listed() {
    let listed = read("docs/API.md");
    let mut seen = 0;
    for library in libraries() {
        let heading = format!("{library}\n");
        let section = listed
            .split("\n## ")
            .find(|section| section.starts_with(&heading))
            .unwrap_or("");
        for (path, _) in public_functions(&library) {
            let rows = section.matches(&format!("\n| `{path}(")).count();
            assert_eq!(rows, 1, "docs/API.md: {library}: {path}");
            seen += 1;
        }
    }
    assert!(seen > 80, "{seen}");
}

/// API.md has no row of a function that is not there, and TRUST.md the lines of each definition file.
#[test]
fn rows_are_true() {
    let mut seen = 0;
    for section in read("docs/API.md").split("\n## ") {
        let (library, rows) = section.split_once('\n').unwrap();
        for row in rows.lines().filter_map(|row| row.strip_prefix("| `")) {
            let path = row.split('(').next().unwrap();
            let here = |library: &String| public_functions(library).iter().any(|f| f.0 == path);
            let crates = libraries();
            let mut listed = crates.iter().filter(|name| *name == library);
            assert!(listed.all(here), "docs/API.md: {library}: {path}");
        }
    }
    for row in read("docs/TRUST.md").lines() {
        if let [_, file, lines, _] = row.split(" | ").collect::<Vec<_>>()[..] {
            if file.starts_with("`crates/") {
                let counted = read(file.trim_matches('`')).lines().count();
                assert_eq!(lines, counted.to_string(), "docs/TRUST.md: {file}");
                seen += 1;
            }
        }
    }
    assert!(seen > 30, "{seen}");
}

/// The definition files that a file cites, as `crates/run/specs/Runs.antt`.
fn cited_by(path: &str) -> Vec<String> {
    let text = read(path);
    let places = text.split("Rattle.").skip(1);
    let files = places.filter_map(|place| {
        let (library, rest) = place.split_once(".specs.")?;
        let file = rest.split(|c: char| !c.is_alphanumeric()).next()?;
        Some(format!("crates/{library}/specs/{file}.antt"))
    });
    // What is declared in a crate's source has no file.
    files.filter(|file| root().join(file).exists()).collect()
}

/// README.md counts the definition files that the calls rest on, and their lines.
#[test]
fn what_the_calls_rest_on_is_counted() {
    let mut files = cited_by("crates/mfp/src/lib.rt");
    let mut next = 0;
    while next < files.len() {
        for file in cited_by(&files[next]) {
            if !files.contains(&file) {
                files.push(file);
            }
        }
        next += 1;
    }
    files.sort();
    files.dedup();
    let lines: usize = files.iter().map(|file| read(file).lines().count()).sum();
    let counted = format!(
        "{} files, {},{:03} lines",
        files.len(),
        lines / 1000,
        lines % 1000
    );
    assert!(read("README.md").contains(&counted), "{counted}");
    let trusted = read("docs/TRUST.md");
    for file in files {
        assert!(trusted.contains(&format!("`{file}`")), "{file}");
    }
}

/// The costs in HOST.md are those that BENCHMARKS.md has.
#[test]
fn costs_are_those_measured() {
    let page = read("docs/HOST.md");
    let measured = read("docs/BENCHMARKS.md");
    let (_, table) = page
        .split_once("\n| | One record a call |")
        .expect("a table of costs");
    let words = table.split(|c: char| !c.is_ascii_digit() && c != '.');
    let costs: Vec<&str> = words.filter(|word| word.len() > 2).collect();
    assert!(costs.len() > 8, "{costs:?}");
    for cost in costs.iter().filter(|cost| **cost != "512") {
        assert!(has_word(&measured, cost), "docs/HOST.md: {cost}");
    }
}

/// Of each result and each buffer lent to be written. The contracts of clients are demands, input reads what others
/// give, and program writes too. The lines of `lent::event` and `row::acknowledge` are in a file of their own, over promises
/// written out; those of mfp_c say that it promises what mfp does. A name there may have a hyphen for an
/// underscore.
#[test]
fn public_functions_promise_one_outcome() {
    let laws = read("crates/clients/proofs/Unique.antt").replace('-', "_");
    let lent = read("crates/clients/proofs/Lent.antt").replace('-', "_");
    let mut crates = libraries();
    crates.retain(|library| !["clients", "input", "program", "mfp_c"].contains(&library.as_str()));
    let mut seen = 0;
    for library in &crates {
        for (path, line) in public_functions(library) {
            let written_out = match (library.as_str(), path.as_str()) {
                ("lent", "event") => [
                    "event.ensures_1",
                    "\nlent_event_fixed :",
                    "\nlent_event_record_fixed :",
                ],
                ("row", "acknowledge") => [
                    "row.ensures_1",
                    "\nrow_acknowledge_fixed :",
                    "\nrow_acknowledge_row_fixed :",
                ],
                _ => [""; 3],
            };
            if written_out[0] != "" {
                assert!(
                    written_out.iter().all(|words| lent.contains(words)),
                    "{path}"
                );
                continue;
            }
            let name = format!("{library}_{path}").replace("::", "_");
            let read_off = format!(
                "{library}.proofs.{}.Reads as {name}\n",
                path.replace("::", ".")
            );
            assert!(laws.contains(&read_off), "{read_off}");
            let result = laws
                .matches(&format!("\n{name}_fixed : FixesResult {name}.Learnt\n"))
                .count();
            let results = line.matches(" -> ").count();
            assert_eq!(result, results, "{library}: {path}");
            let buffers = laws
                .matches(&format!(": FixesBuffer {name}.Learnt "))
                .count();
            assert_eq!(buffers, line.matches("&mut ").count(), "{library}: {path}");
            seen += 1;
        }
    }
    assert!(seen > 80, "{seen}");
    let same = read("crates/mfp_c/proofs/Same.antt").replace('-', "_");
    let exports = public_functions("mfp_c");
    assert_eq!(exports.len(), 3);
    for (name, _) in exports {
        for words in [
            format!("\nuse Rattle.mfp.proofs.{name}.Reads as {name}\n"),
            format!("\nuse Rattle.mfp_c.proofs.{name}.Reads as exported_{name}\n"),
            format!("\n{name}_same : exported_{name}.Learnt ≡ {name}.Learnt\n"),
        ] {
            assert!(same.contains(&words), "{words}");
        }
    }
}

/// The public ones also by their paths, where it says why they ask.
#[test]
fn functions_that_ask_are_listed() {
    let listed = read("docs/API.md");
    let asking = |line: &&str| line.starts_with("**Functions with a `requires`.**");
    let reasons = listed.lines().find(asking).unwrap();
    let mut seen = 0;
    for library in libraries() {
        let mut name = String::new();
        for line in source(&library).lines() {
            let line = line.trim_start();
            if let Some((_, rest)) = line.split_once("fn ") {
                if !line.starts_with("//") {
                    name = rest.split(['(', '<']).next().unwrap().to_string();
                }
            }
            if !line.starts_with("requires ") {
                continue;
            }
            let row = listed.lines().find(|row| {
                row.starts_with(&format!("| {library} |"))
                    && (row.contains(&format!("`{name}`")) || row.contains(&format!("::{name}`")))
            });
            assert!(row.is_some(), "docs/API.md lacks {library}: {name}");
            let mut public = public_functions(&library).into_iter();
            if public.any(|f| f.0.rsplit("::").next() == Some(&name)) {
                let path = format!("`{library}::{name}`");
                assert!(reasons.contains(&path), "docs/API.md lacks {path}");
            }
            seen += 1;
        }
    }
    assert!(seen > 25, "{seen}");
}

/// The functions of a source: the name of each, its contract from the parameters on, and its body.
fn contracts(library: &str) -> Vec<(String, String, String)> {
    let text = source(library);
    let functions = text.split("fn ").skip(1);
    functions
        .map(|function| {
            let (name, rest) = function.split_once('(').expect("parameters");
            let (contract, rest) = rest.split_once("\n{\n").expect("a body");
            let (body, _) = rest.split_once("\n}\n").expect("an end");
            (name.to_string(), contract.to_string(), body.to_string())
        })
        .collect()
}

/// The exports of mfp_c have mfp's parameters, results and clauses word for word, over the same definitions, and
/// each hands its buffers on to the function of its name.
#[test]
fn exports_say_what_the_library_says() {
    let exports = source("mfp_c");
    let ours = contracts("mfp");
    let theirs = contracts("mfp_c");
    let marked = exports.matches("\n#[unsafe(no_mangle)]\npub extern \"C\" fn ");
    assert_eq!(marked.count(), theirs.len());
    assert_eq!(theirs.len(), 3);
    assert_eq!(ours.len(), theirs.len());
    for ((name, contract, _), (export, exported, body)) in ours.iter().zip(&theirs) {
        assert_eq!(name, export);
        assert_eq!(contract, exported, "{name}");
        assert!(contract.contains("\n    ensures {"), "{name}: {contract}");
        let (parameters, _) = contract.split_once(')').expect("a result");
        let words = parameters.split(", ");
        let names: Vec<&str> = words.filter_map(|word| word.split(':').next()).collect();
        assert_eq!(*body, format!("    mfp::{name}({})", names.join(", ")));
    }
    // What the clauses cite.
    let cited = |text: &str| -> Vec<String> {
        let lines = text.lines().filter(|line| line.starts_with("ghost use "));
        lines.map(str::to_string).collect()
    };
    assert_eq!(cited(&exports), cited(&source("mfp")));
}

/// The sources of the tests, all in one text.
fn tests() -> String {
    let mut text = String::new();
    for folder in ["host/differ/src", "host/tests"] {
        for file in names_in(folder) {
            if file.ends_with(".rs") {
                text += &read(&format!("{folder}/{file}"));
            }
        }
    }
    text
}

#[test]
fn cases_named_are_there() {
    let tests = tests();
    let mut seen = 0;
    for row in read("docs/MAP.md")
        .lines()
        .filter(|line| line.starts_with('|'))
    {
        let Some(cases) = row.split(" | ").nth(3) else {
            continue;
        };
        for case in cases.split('"').skip(1).step_by(2) {
            // A group of cases, or a heading.
            if case.ends_with("..") || case == "002 by heading" {
                continue;
            }
            let function = case.replace(' ', "_");
            let here = tests.contains(&format!("\"{case}\"")) || has_word(&tests, &function);
            assert!(here, "docs/MAP.md: {case}");
            seen += 1;
        }
    }
    assert!(seen > 100, "{seen}");
}
