//! What docs/PROMISES.md names is in the tree: files, names, lines, must-fail edits, and the reading list for demand 3.

use std::collections::BTreeSet;
use std::fs;
use std::path::{Path, PathBuf};

fn root() -> PathBuf {
    Path::new(env!("CARGO_MANIFEST_DIR")).join("..")
}

fn text(file: impl AsRef<Path>) -> String {
    let file = root().join(file);
    fs::read_to_string(&file).unwrap_or_else(|_| panic!("no file {}", file.display()))
}

fn promises() -> String {
    text("docs/PROMISES.md")
}

/// What stands between backticks.
fn quoted(text: &str) -> Vec<&str> {
    text.split('`').skip(1).step_by(2).collect()
}

/// All files below a folder.
fn below(dir: &Path, found: &mut Vec<PathBuf>) {
    for entry in fs::read_dir(dir).unwrap() {
        let path = entry.unwrap().path();
        if path.is_dir() {
            // (what rt made is no source)
            if path.file_name().is_none_or(|name| name != "out") {
                below(&path, found);
            }
        } else {
            found.push(path);
        }
    }
}

/// The sources, definitions and proofs of the crates.
fn sources() -> String {
    let mut files = Vec::new();
    below(&root().join("crates"), &mut files);
    files.retain(|f| f.extension().is_some_and(|e| e == "rt" || e == "antt"));
    files.iter().map(|f| fs::read_to_string(f).unwrap()).collect()
}

#[test]
fn files_are_there() {
    for file in ["docs/PROMISES.md", "docs/DECISIONS.md", "README.md"] {
        for name in text(file).split('`').skip(1).step_by(2) {
            let path = name.split(':').next().unwrap();
            if path.ends_with(".antt") || path.ends_with(".rt") {
                let whole = path.contains('/') && !path.contains("MODULE");
                assert!(!whole || root().join("crates").join(path).exists(), "{file}: {name}");
            }
        }
    }
}

/// `crate/src/file.rt:LINE` (`name`): that line has the name.
#[test]
fn lines_are_as_said() {
    let promises = promises();
    let marks = quoted(&promises);
    let mut seen = 0;
    for (place, name) in marks.iter().zip(marks.iter().skip(1)) {
        let Some((file, line)) = place.split_once(".rt:") else { continue };
        let line: usize = line.parse().unwrap_or_else(|_| panic!("{place}"));
        let source = text(format!("crates/{file}.rt"));
        let found = source.lines().nth(line - 1).unwrap_or("");
        assert!(found.contains(name), "{place}: no {name} in '{found}'");
        seen += 1;
    }
    assert!(seen >= 15, "{seen} places");
}

/// The names of a crate's edits.
fn edits_of(name: &str) -> BTreeSet<String> {
    let mut found = BTreeSet::new();
    for folder in ["must-fail", "must-fail-long"] {
        let Ok(dir) = fs::read_dir(root().join("crates").join(name).join(folder)) else { continue };
        found.extend(dir.map(|e| e.unwrap().path().file_stem().unwrap().to_str().unwrap().to_owned()));
    }
    found
}

/// Each row of the table of public functions names edits of its crate, and each edit is in a row.
#[test]
fn edits_are_as_listed() {
    let promises = promises();
    let table = promises.split("## Public functions").nth(1).unwrap().split("\n## ").next().unwrap();
    let mut listed = BTreeSet::new();
    for row in table.lines().filter(|l| l.starts_with("| ") && l.contains('`')) {
        let cells: Vec<&str> = row.split('|').collect();
        let of = quoted(cells[1])[0].split("::").next().unwrap();
        let known = edits_of(of);
        for word in cells[2].split([',', ';']).map(|w| w.trim().trim_end_matches('*')) {
            if !word.is_empty() && !word.contains(' ') {
                assert!(known.contains(word), "{of}: no edit {word}");
                listed.insert(format!("{of}/{word}"));
            }
        }
    }
    for entry in fs::read_dir(root().join("crates")).unwrap() {
        let name = entry.unwrap().file_name().into_string().unwrap();
        for edit in edits_of(&name) {
            assert!(listed.contains(&format!("{name}/{edit}")), "{name}/{edit} is in no row");
        }
    }
}

/// `crate/edit` anywhere else in the page is an edit of that crate.
#[test]
fn edits_cited_are_there() {
    for name in quoted(&promises()) {
        if let Some((of, edit)) = name.split_once('/') {
            let word = edit.bytes().all(|b| b.is_ascii_lowercase() || b.is_ascii_digit() || b == b'_');
            let known = edits_of(of);
            if word && !known.is_empty() && !["specs", "proofs", "src"].contains(&edit) {
                assert!(known.contains(edit), "no edit {name}");
            }
        }
    }
}

/// A name of the tables is a word of the sources.
#[test]
fn names_are_there() {
    let sources = sources();
    let words: BTreeSet<&str> =
        sources.split(|c: char| !(c.is_alphanumeric() || "_-'".contains(c))).collect();
    for name in quoted(&promises()) {
        let last = name.split([':', '.', ' ']).rfind(|w| !w.is_empty()).unwrap_or("");
        let plain = !name.contains('/') && !name.contains("..") && !name.ends_with(".antt");
        let word = last.chars().all(|c| c.is_alphanumeric() || "_-".contains(c)) && !last.is_empty();
        if plain && word && !words.contains(last) {
            let file = last == "stdout" || root().join("crates").join(last).exists();
            assert!(file, "no {name} in the crates");
        }
    }
}

/// The rows of the table that follows a heading, cell by cell, without the two lines of its head.
fn table<'a>(page: &'a str, heading: &str) -> Vec<Vec<&'a str>> {
    let after = page.split(heading).nth(1).unwrap_or_else(|| panic!("no '{heading}'"));
    let rows = after.lines().skip_while(|l| !l.starts_with('|')).take_while(|l| l.starts_with('|'));
    rows.skip(2).map(|l| l.trim_matches('|').split('|').map(str::trim).collect()).collect()
}

/// The first errors of 'Ruled out by name' are those of the gate's log, if this tree has been through the gate.
#[test]
fn first_errors_are_as_said() {
    let page = promises();
    let rows = table(&page, "## Ruled out by name");
    assert!(rows.len() >= 14, "{} rows", rows.len());
    let log = fs::read_to_string(root().join("target/ci.log")).unwrap_or_default();
    for row in rows {
        let (edit, file) = (quoted(row[1])[0], quoted(row[3])[0]);
        let (of, name) = edit.split_once('/').unwrap();
        let gate = root().join(format!("crates/{of}/must-fail/{name}.edit"));
        assert!(gate.exists(), "{edit} is outside the gate");
        assert!(root().join("crates").join(file).exists(), "{edit}: no {file}");
        let Some(line) = log.lines().find(|l| l.contains(&format!("must-fail {edit}.edit: "))) else {
            assert!(log.is_empty(), "{edit} is not in the gate's log");
            continue;
        };
        let at = file.strip_prefix(&format!("{of}/")).unwrap();
        assert!(line.contains(&format!("{at}:")), "{edit}: {line}");
    }
}

/// The files of `specs/` that a file imports, and the types of its own or other crates, as (crate, name).
fn imports(file: &str) -> (Vec<String>, Vec<(String, String)>) {
    let (mut files, mut types) = (Vec::new(), Vec::new());
    for line in text(format!("crates/{file}")).lines() {
        let Some(module) = line.strip_prefix("use Rattle.") else { continue };
        let of = module.split('.').next().unwrap().to_owned();
        if of == "std" {
            continue;
        }
        let mut path =
            module.split(".specs.").nth(1).unwrap_or_else(|| panic!("{file}: {line}")).split(['.', ' ']);
        let name = path.next().unwrap();
        if name == "declared" {
            types.push((of, path.next().unwrap().to_owned()));
        } else {
            files.push(format!("{of}/specs/{name}.antt"));
        }
    }
    (files, types)
}

/// How many lines a crate declares these types in, their comments included.
fn declared(of: &str, types: &BTreeSet<(String, String)>) -> usize {
    let source = text(format!("crates/{of}/src/lib.rt"));
    let mut names: BTreeSet<&str> = types.iter().filter(|t| t.0 == of).map(|t| t.1.as_str()).collect();
    let mut lines = 0;
    for block in source.split("\n\n") {
        let head = block.lines().find_map(|l| l.strip_prefix("pub struct ").or(l.strip_prefix("pub enum ")));
        if head.is_some_and(|h| names.remove(h.split(' ').next().unwrap())) {
            lines += block.lines().filter(|l| !l.trim().is_empty()).count();
        }
    }
    assert!(names.is_empty(), "{of} declares no {names:?}");
    lines
}

/// Lines without imports and blanks.
fn lines_of(file: &str) -> usize {
    let source = text(format!("crates/{file}"));
    source.lines().filter(|l| !l.trim().is_empty() && !l.starts_with("use ")).count()
}

/// What One and Eleven add to the list has as many lines as said.
#[test]
fn requests_add_so_many_lines() {
    let page = promises();
    for (request, count) in [("**For One**", 5), ("**For Eleven**", 3)] {
        let from = page.find(request).expect("its paragraph");
        let paragraph = page[from..].split("\n\n").next().unwrap();
        let files = quoted(paragraph);
        assert_eq!(files.len(), count, "{request}");
        for file in files {
            let after = paragraph.split(file).nth(1).unwrap();
            let said = after.split(|c: char| !c.is_ascii_digit()).find(|digits| !digits.is_empty());
            assert_eq!(said, Some(lines_of(file).to_string().as_str()), "{file}");
        }
    }
}

/// The reading list for demand 3 is what its claim imports, each file after its imports, with its lines and their sum.
#[test]
fn reading_list_is_whole() {
    let page = promises();
    let mut rows = table(&page, "**For demand 3**");
    let sum = rows.pop().unwrap();
    let files: Vec<&str> = rows.iter().map(|r| quoted(r[0])[0]).collect();
    let mut types = BTreeSet::new();
    for (n, file) in files.iter().enumerate().filter(|(_, f)| f.ends_with(".antt")) {
        let (needs, uses) = imports(file);
        for need in needs {
            assert!(files[..n].contains(&need.as_str()), "{file} stands before {need}");
        }
        types.extend(uses);
    }
    assert_eq!(files.last(), Some(&"session/specs/Claim.antt"));
    for (of, name) in &types {
        assert!(files.contains(&format!("{of}/src/lib.rt").as_str()), "no row for {of}'s {name}");
    }
    let mut total = 0;
    for (row, file) in rows.iter().zip(&files) {
        let of = file.split('/').next().unwrap();
        let lines = if file.ends_with(".rt") { declared(of, &types) } else { lines_of(file) };
        assert_eq!(row[2], lines.to_string(), "{file}");
        total += lines;
    }
    assert_eq!(sum[2], total.to_string(), "the sum");
}

/// No file of the reading list could be left out: the claim needs each of them.
#[test]
fn reading_list_is_needed() {
    let page = promises();
    let mut needed = BTreeSet::from(["session/specs/Claim.antt".to_owned()]);
    let mut left: Vec<String> = needed.iter().cloned().collect();
    while let Some(file) = left.pop() {
        let fresh = imports(&file).0.into_iter().filter(|f| needed.insert(f.clone())).collect::<Vec<_>>();
        left.extend(fresh);
    }
    for row in table(&page, "**For demand 3**").iter().filter(|r| r[0].contains(".antt")) {
        assert!(needed.contains(quoted(row[0])[0]), "{} is not needed", row[0]);
    }
}
