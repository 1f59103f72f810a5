//! The papers name what there is: files, definitions, theorems, edits that must fail, and
//! sections of other papers.

mod common;

use std::collections::HashSet;
use std::fs;
use std::path::{Path, PathBuf};
use std::process::Command;

use common::root;

/// Papers beside those of `docs`.
const PAPERS: &[&str] = &[
    "README.md",
    "CONTRIBUTING.md",
    "bench/README.md",
    "compare/README.md",
    "examples/README.md",
    "examples/pictures/README.md",
];

/// Papers that tell what was, too: of these the links are tested, and not the names.
const HISTORY: &[&str] = &[
    "docs/CHANGES.md",
    "docs/DESIGN-PASS.md",
    "docs/DIFFERENCES.md",
    "docs/LOOK-BACK.md",
];

/// Papers of which every quoted name is one of a source.
const NAMING: &[&str] = &["docs/DECISIONS.md", "docs/RULES.md", "docs/STATEMENTS.md"];

/// Names of the original that ours has not.
const ORIGINAL: &[&str] = &[
    "IndirectRematerialize",
    "MoveIndex",
    "move_resolver.rs",
    "probed",
];

/// The folders of the repository that papers name, beside the crates.
const FOLDERS: &[&str] = &[
    "docs", "rust", "c", "bench", "compare", "examples", "crates", ".ci",
];

/// All papers.
fn all_papers() -> Vec<String> {
    let docs = fs::read_dir(root().join("docs")).unwrap();
    let docs = docs.map(|entry| entry.unwrap().file_name().into_string().unwrap());
    let docs = docs.filter(|name| name.ends_with(".md"));
    let beside = PAPERS.iter().map(|paper| paper.to_string());
    beside
        .chain(docs.map(|name| format!("docs/{name}")))
        .collect()
}

/// Papers that speak of the repository as it is.
fn papers() -> Vec<String> {
    let mut papers = all_papers();
    papers.retain(|paper| !HISTORY.contains(&paper.as_str()));
    papers
}

fn read(paper: &str) -> String {
    fs::read_to_string(root().join(paper)).unwrap()
}

/// A paper without its blocks of code.
fn prose(paper: &str) -> String {
    read(paper).split("```").step_by(2).collect()
}

/// All files below a folder whose names end so, but for what is built.
fn files(folder: &Path, endings: &[&str], found: &mut Vec<PathBuf>) {
    for entry in fs::read_dir(folder).unwrap() {
        let path = entry.unwrap().path();
        if path.is_dir() {
            if !["target", "out"].iter().any(|built| path.ends_with(built)) {
                files(&path, endings, found);
            }
        } else if endings
            .iter()
            .any(|end| path.to_string_lossy().ends_with(end))
        {
            found.push(path);
        }
    }
}

/// The names in a text, and the parts of those with a prime. The version in which an exported
/// function's name ends is left out.
fn names(text: &str, into: &mut HashSet<String>) {
    let is_name = |c: char| c.is_alphanumeric() || "_-'".contains(c);
    for name in text.split(|c| !is_name(c)) {
        into.extend(name.split('\'').map(String::from));
        if let Some((front, version)) = name.rsplit_once('_') {
            if version.parse::<u32>().is_ok() {
                into.insert(front.into());
            }
        }
        into.insert(name.into());
    }
}

/// The names in a file, or in all files of a folder.
fn names_in(path: &Path) -> HashSet<String> {
    let mut found = vec![path.to_path_buf()];
    if path.is_dir() {
        found.clear();
        files(path, &[".antt", ".rt"], &mut found);
    }
    let mut all = HashSet::new();
    for file in found {
        names(&fs::read_to_string(file).unwrap(), &mut all);
    }
    all
}

/// Where a paper's name of a file leads: from the top, from `crates/` or from the paper on; of a
/// source without its ending.
fn found(paper: &str, name: &str) -> Option<PathBuf> {
    let beside = root().join(paper).parent().unwrap().to_path_buf();
    let folders = [root().to_path_buf(), root().join("crates"), beside];
    let endings = ["", ".antt", ".rt"];
    let mut paths = folders
        .iter()
        .flat_map(|folder| endings.map(|end| folder.join(format!("{name}{end}"))));
    paths.find(|path| path.exists())
}

/// The folders of a crate.
const PARTS: &[&str] = &["src", "specs", "proofs", "must-fail"];

/// Whether a word of a paper names a file that should be there: not one that is built, nor a
/// pattern.
fn is_file_name(word: &str) -> bool {
    let parts: Vec<&str> = word.split('/').collect();
    let of_crate = parts.len() > 1 && PARTS.contains(&parts[1]);
    let known =
        FOLDERS.contains(&parts[0]) || of_crate && root().join("crates").join(parts[0]).is_dir();
    let built = parts.contains(&"target") || parts.contains(&"out");
    parts.len() > 1 && known && !built && !word.contains("NAME")
}

/// The words of a text that may name a file.
fn words(text: &str) -> impl Iterator<Item = &str> {
    let is_part = |c: char| c.is_ascii_alphanumeric() || "/._-*".contains(c);
    let words = text.split(move |c| !is_part(c));
    words.map(|word| word.trim_end_matches(['.', '/']))
}

#[test]
fn files_are_there() {
    let mut count = 0;
    for paper in &papers() {
        for word in words(&prose(paper)) {
            if is_file_name(word) && !word.contains('*') {
                assert!(found(paper, word).is_some(), "{paper} names {word}");
                count += 1;
            }
        }
    }
    assert!(count > 500, "{count}");
}

/// What stands behind the name of a file and a colon is in that file.
#[test]
fn names_are_in_their_files() {
    let mut count = 0;
    for paper in &papers() {
        let text = prose(paper);
        let parts: Vec<&str> = text.split('`').collect();
        let mut file: Option<(&str, HashSet<String>)> = None;
        for at in (1..parts.len() - 1).step_by(2) {
            let (quoted, behind) = (parts[at], parts[at + 1]);
            if is_file_name(quoted) {
                let path = found(paper, quoted).filter(|_| behind == ": ");
                file = path.map(|path| (quoted, names_in(&path)));
                continue;
            }
            if let Some((name, has)) = &file {
                for part in quoted.split('.').filter(|part| !part.is_empty()) {
                    assert!(has.contains(part), "{paper}: {quoted} is not in {name}");
                    count += 1;
                }
            }
            if ![", ", " and "].contains(&behind) {
                file = None;
            }
        }
    }
    assert!(count > 300, "{count}");
}

/// Every quoted name is one of a source.
#[test]
fn names_are_somewhere() {
    let mut sources = Vec::new();
    for (folder, endings) in [
        ("crates", &[".rt", ".antt"][..]),
        ("rust", &[".rs"]),
        ("c", &[".h", ".c"]),
        ("compare/trials", &[".txt"]),
    ] {
        files(&root().join(folder), endings, &mut sources);
    }
    let mut all: HashSet<String> = HashSet::new();
    for source in &sources {
        names(&fs::read_to_string(source).unwrap(), &mut all);
        all.insert(source.file_stem().unwrap().to_string_lossy().into());
    }
    for folder in fs::read_dir(root().join("crates")).unwrap() {
        all.insert(folder.unwrap().file_name().into_string().unwrap());
    }
    for paper in NAMING {
        for quoted in prose(paper).split('`').skip(1).step_by(2) {
            if quoted.contains([' ', '/', '<', '(', '&']) || ORIGINAL.contains(&quoted) {
                continue;
            }
            for part in quoted.split(['.', ':']).filter(|part| !part.is_empty()) {
                assert!(all.contains(part), "{paper} names {quoted}");
            }
        }
    }
}

/// A name that stands slanted is an edit that must fail, or a wrong program.
#[test]
fn edits_are_there() {
    let mut edits = Vec::new();
    files(&root().join("crates"), &[".edit"], &mut edits);
    files(&root().join("compare/wrong"), &[".edit"], &mut edits);
    let edits: HashSet<String> = edits
        .iter()
        .map(|path| path.file_stem().unwrap().to_string_lossy().into())
        .collect();
    let is_edit = |c: char| c.is_ascii_lowercase() || c.is_ascii_digit() || c == '_';
    let text = prose("docs/STATEMENTS.md");
    let mut count = 0;
    for slanted in text.split('*').skip(1) {
        if slanted.contains('_') && slanted.chars().all(is_edit) {
            assert!(edits.contains(slanted), "there is no edit {slanted}");
            count += 1;
        }
    }
    assert!(count > 150, "{count}");
}

/// The anchor of a heading, as it is made by those who show these papers.
fn anchor(heading: &str) -> String {
    let kept = heading
        .to_lowercase()
        .chars()
        .filter(|c| c.is_alphanumeric() || " _-".contains(*c))
        .collect::<String>();
    kept.replace(' ', "-")
}

#[test]
fn links_lead_somewhere() {
    let mut count = 0;
    for paper in &all_papers() {
        for link in prose(paper).split("](").skip(1) {
            let (link, _) = link.split_once(')').unwrap();
            let (file, section) = link.split_once('#').unwrap_or((link, ""));
            let path = match file {
                "" => root().join(paper),
                _ => root().join(paper).parent().unwrap().join(file),
            };
            assert!(path.exists(), "{paper}: {link}");
            if !section.is_empty() {
                let text = fs::read_to_string(path).unwrap();
                let mut headings = text.lines().filter(|line| line.starts_with('#'));
                let is_it = |line: &str| anchor(line.trim_start_matches('#').trim()) == section;
                assert!(headings.any(is_it), "{paper}: {link}");
            }
            count += 1;
        }
    }
    assert!(count > 40, "{count}");
}

/// README's table of what there is to do: each command, each name in Rust and each in C.
#[test]
fn readme_names_what_there_is() {
    let readme = read("README.md");
    let (_, table) = readme.split_once("| task | command").unwrap();
    let mut rust = HashSet::new();
    let mut sources = Vec::new();
    files(&root().join("rust/src"), &[".rs"], &mut sources);
    for source in sources {
        names(&fs::read_to_string(source).unwrap(), &mut rust);
    }
    let mut c = HashSet::new();
    names(&(read("c/parallel_moves.h") + &read("c/stamp")), &mut c);
    let mut command = Command::new(env!("CARGO_BIN_EXE_parallel-moves"));
    let help = String::from_utf8(command.arg("--help").output().unwrap().stdout).unwrap();
    let rows = table
        .lines()
        .skip(2)
        .take_while(|line| line.starts_with('|'));
    let mut count = 0;
    for row in rows {
        let cells: Vec<&str> = row.split('|').collect();
        let quoted = |cell: usize| cells[cell].split('`').skip(1).step_by(2);
        for name in quoted(2) {
            let is_there = help.split_whitespace().any(|word| word == name);
            assert!(is_there, "parallel-moves {name}");
        }
        for part in quoted(3).flat_map(|name| name.split("::")) {
            assert!(rust.contains(part), "{part}");
        }
        for name in quoted(4) {
            assert!(c.contains(name), "{name}");
        }
        count += 1;
    }
    assert!(count > 10, "{count}");
}
