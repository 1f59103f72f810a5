//! The form of the sources: no file is too long to be read, and every crate begins by saying
//! what it is.

mod common;

use std::fs;
use std::path::{Path, PathBuf};

use common::root;

/// No source, definition, proof or test has more lines.
const MOST_LINES: usize = 500;

/// Files of these kinds below a folder, but for what is built.
fn sources(folder: &Path, found: &mut Vec<PathBuf>) {
    for entry in fs::read_dir(folder).unwrap() {
        let path = entry.unwrap().path();
        if path.is_dir() && !["target", "out"].iter().any(|built| path.ends_with(built)) {
            sources(&path, found);
        }
        let ending = path.extension().and_then(|ending| ending.to_str());
        if ["rt", "antt", "rs", "c"]
            .iter()
            .any(|kind| ending == Some(*kind))
        {
            found.push(path);
        }
    }
}

#[test]
fn files_are_short() {
    let mut found = Vec::new();
    for folder in ["crates", "rust", "c", "compare", "bench"] {
        sources(&root().join(folder), &mut found);
    }
    assert!(found.len() > 1000, "{}", found.len());
    for path in found {
        let lines = fs::read_to_string(&path).unwrap().lines().count();
        assert!(lines <= MOST_LINES, "{} has {lines} lines", path.display());
    }
}

#[test]
fn crates_say_what_they_are() {
    for folder in fs::read_dir(root().join("crates")).unwrap() {
        let folder = folder.unwrap().path();
        let mut roots = ["src/lib.rt", "src/main.rt"]
            .map(|name| folder.join(name))
            .into_iter();
        let path = roots.find(|path| path.exists()).unwrap();
        let text = fs::read_to_string(&path).unwrap();
        assert!(text.starts_with("// "), "{}", path.display());
    }
}
