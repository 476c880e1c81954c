//! What a machine can see of the documents: that RULES has every definition and every definitions file
//! its section, that links and must-fail edits named are there, and that the man pages' examples are
//! the stored ones. It is run from the top of the repository.

use std::collections::BTreeSet;
use std::fs;
use std::path::{Path, PathBuf};
use std::process::ExitCode;
use tests::report::{same, Outcome, Report};

/// Must-fail edits, as crate and name.
type Edits = BTreeSet<(String, String)>;

fn main() -> ExitCode {
    let mut report = Report::new("documents");
    let rules = text("docs/RULES.md");
    report.listed("sections of definitions files", specs(), |file| {
        names_its_sections(&file, &rules)
    });
    report.listed("definitions in RULES", definitions(), |name| {
        holds(&rules, "RULES", &format!("`{name}`"))
    });
    report.listed("links", links(), |(document, link)| {
        let target = document.with_file_name("").join(&link);
        same(&format!("{link} of {document:?}"), target.exists(), true)
    });
    let named = named_edits(&text("docs/TRACE.md"));
    report.listed("edits in TRACE", edits(), |(name, edit)| {
        let all = (name.clone(), "*".to_string());
        let found = named.contains(&all) || named.contains(&(name.clone(), edit.clone()));
        same(&format!("{name}/{edit} in TRACE"), found, true)
    });
    let by_name = named.iter().filter(|(_, edit)| edit != "*");
    report.listed("edits that TRACE names", by_name, |edit| {
        same(&format!("{edit:?}"), edits().contains(edit), true)
    });
    let (new, gone) = edits_of_notes();
    report.listed("new edits of the change notes", new, |edit| {
        let known = edits().contains(&edit) || gone.contains(&edit);
        same(&format!("{edit:?} there or gone"), known, true)
    });
    report.listed("gone edits of the change notes", &gone, |edit| {
        same(&format!("{edit:?}"), edits().contains(edit), false)
    });
    for (page, files) in MAN_PAGES {
        report.listed(&format!("examples of {page}"), files, |file| {
            let lines = format!(".Bd -literal -offset indent\n{}.Ed\n", text(file));
            holds(&text(page), page, &lines)
        });
    }
    report.finish()
}

fn text(path: impl AsRef<Path>) -> String {
    let path = path.as_ref();
    fs::read_to_string(path).unwrap_or_else(|error| panic!("{path:?}: {error}"))
}

/// The files of a folder with the ending, in order of name.
fn files(folder: &str, ending: &str) -> BTreeSet<PathBuf> {
    let entries = fs::read_dir(folder).unwrap_or_else(|error| panic!("{folder}: {error}"));
    let paths = entries.map(|entry| entry.expect("a folder can be listed").path());
    paths
        .filter(|path| path.to_string_lossy().ends_with(ending))
        .collect()
}

fn holds(text: &str, name: &str, part: &str) -> Outcome {
    same(
        &format!("that {name} holds {part}"),
        text.contains(part),
        true,
    )
}

/// The files of definitions, but for their root, which has none.
fn specs() -> BTreeSet<PathBuf> {
    let mut specs = files("crates/model/specs", ".antt");
    specs.retain(|path| !path.ends_with("Lib.antt"));
    specs
}

/// The head comment says `docs/RULES.md, N`, and RULES has that section.
fn names_its_sections(file: &Path, rules: &str) -> Outcome {
    let text = text(file);
    let head: Vec<&str> = text
        .lines()
        .take_while(|line| line.starts_with("--"))
        .collect();
    let head = head.join(" ");
    let (_, section) = head.split_once("docs/RULES.md, ").unwrap_or_default();
    let number: String = section.chars().take_while(char::is_ascii_digit).collect();
    let found = !number.is_empty() && rules.contains(&format!("\n## {number} "));
    same(&format!("a section of RULES in {file:?}"), found, true)
}

/// The names that the files of definitions declare for others.
fn definitions() -> BTreeSet<String> {
    let declared = |line: &str| {
        let line = line.trim_start();
        let rest = ["unfoldable pub ", "abbrev pub "]
            .iter()
            .find_map(|start| line.strip_prefix(start))
            .or_else(|| line.strip_prefix("pub record "))
            .or_else(|| line.strip_prefix("pub data "))?;
        rest.split_whitespace().next().map(str::to_string)
    };
    let texts = specs().into_iter().map(text);
    texts
        .flat_map(|text| text.lines().filter_map(declared).collect::<Vec<_>>())
        .collect()
}

/// The links of the documents to files of the repository.
fn links() -> Vec<(PathBuf, String)> {
    let mut documents = files("docs", ".md");
    documents.insert(PathBuf::from("README.md"));
    let mut links = Vec::new();
    for document in documents {
        for part in text(&document).split("](").skip(1) {
            let link = part.split(')').next().unwrap_or_default();
            if !link.contains("://") {
                links.push((document.clone(), link.to_string()));
            }
        }
    }
    links
}

/// Each must-fail edit.
fn edits() -> Edits {
    let crates = files("crates", "");
    let folders = crates.iter().filter(|path| path.join("must-fail").is_dir());
    folders
        .flat_map(|path| {
            let folder = path.join("must-fail");
            let edits = files(&folder.to_string_lossy(), ".edit");
            edits
                .into_iter()
                .map(|edit| (stem(path), stem(&edit)))
                .collect::<Vec<_>>()
        })
        .collect()
}

fn stem(path: &Path) -> String {
    let stem = path.file_stem().expect("a file has a name");
    stem.to_string_lossy().into_owned()
}

/// The edits that a text names, `*` for all of a crate. In a cell of a table, or in the text between two
/// tables, a name alone is of the crate that was named last. Code, which stands in backquotes, names
/// none.
fn named_edits(text: &str) -> Edits {
    let crates: BTreeSet<String> = edits().into_iter().map(|(name, _)| name).collect();
    let mut named = BTreeSet::new();
    for cell in text.split('|') {
        let mut last = "";
        for word in cell.split('`').step_by(2).flat_map(words) {
            let (name, edit) = word.split_once('/').unwrap_or((last, word));
            let is_edit = edit == "*" || edit.contains('_') && !crates.contains(word);
            if is_edit && crates.contains(name) {
                named.insert((name.to_string(), edit.to_string()));
            }
            last = name;
        }
    }
    named
}

fn words(text: &str) -> impl Iterator<Item = &str> {
    text.split(|c: char| !(c.is_ascii_alphanumeric() || "_/*".contains(c)))
        .filter(|word| !word.is_empty())
}

/// The edits that the change notes say are new, and those that they say are gone.
fn edits_of_notes() -> (Edits, Edits) {
    let notes = files("docs/changes", ".md").into_iter().map(text);
    let notes: Vec<String> = notes.collect();
    let named_after = |start: &str| {
        let lists = notes.iter().flat_map(|note| note.split(start).skip(1));
        lists
            .filter_map(|list| list.split('.').next())
            .flat_map(named_edits)
            .collect()
    };
    (
        named_after("New must-fail edits:"),
        named_after("Gone with"),
    )
}

/// The examples whose lines a man page shows.
const MAN_PAGES: [(&str, &[&str]); 2] = [
    (
        "docs/plan.1",
        &[
            "examples/bakehouse.table",
            "examples/bakehouse.plan",
            "examples/both-ends.table",
            "examples/both-ends.plan",
            "examples/added-layout.table",
            "examples/added-layout.plan",
            "examples/exchanged.plan",
            "examples/windows.table",
            "examples/windows.plan",
        ],
    ),
    (
        "docs/group.1",
        &[
            "examples/three-across.table",
            "examples/three-across.groups-3",
        ],
    ),
];
