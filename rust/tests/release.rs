//! What a release says of itself: the versions that CHANGELOG.md tells of are those of the
//! interface, each with its functions, and the crate's version goes with the last. The licence
//! texts are those of NOTICE.

mod common;

use std::collections::{BTreeMap, BTreeSet};
use std::fs;

use common::root;

fn read(path: &str) -> String {
    fs::read_to_string(root().join(path)).unwrap()
}

/// The names of the functions of each version of the interface.
fn functions() -> BTreeMap<u32, BTreeSet<String>> {
    let mut versions = BTreeMap::new();
    let mut version = 0;
    for line in read("c/interface.txt").lines() {
        if let Some(number) = line.strip_prefix("version ") {
            version = number.parse().unwrap();
            versions.insert(version, BTreeSet::new());
        } else if let Some((name, _)) = line.split_once(": ") {
            let functions = versions.get_mut(&version).unwrap();
            functions.insert(name.to_owned());
        }
    }
    versions
}

/// The section of a version.
fn section(changes: &str, version: u32) -> &str {
    let heading = format!("## Interface {version}, crate ");
    let (_, after) = changes
        .split_once(&heading)
        .unwrap_or_else(|| panic!("CHANGELOG.md has no '{heading}'"));
    after.split("\n## ").next().unwrap()
}

/// Each version's section names the functions that it has and the one before had not.
#[test]
fn changes_name_every_function() {
    let changes = read("CHANGELOG.md");
    let versions = functions();
    assert!(versions.len() >= 5);
    let mut before = BTreeSet::new();
    for (version, functions) in versions {
        let section = section(&changes, version);
        for function in functions.difference(&before) {
            assert!(
                section.contains(&format!("`{function}`")),
                "CHANGELOG.md does not name {function} under interface {version}"
            );
        }
        before = functions;
    }
}

/// The crate is 0.N.P for version N of the interface, which is the last.
#[test]
fn versions_go_together() {
    let (last, _) = functions().pop_last().unwrap();
    let header = read("c/parallel_moves.h");
    assert!(header.contains(&format!("#define PARALLEL_MOVES_INTERFACE {last}\n")));
    let version = env!("CARGO_PKG_VERSION");
    assert!(version.starts_with(&format!("0.{last}.")), "{version}");
    let changes = read("CHANGELOG.md");
    assert!(section(&changes, last).starts_with(&format!("{version}\n")));
}

/// The licence texts are NOTICE's, and the crate has them too, with NOTICE and CHANGELOG.md.
#[test]
fn licence_texts_agree() {
    let notice = read("NOTICE");
    for text in ["LICENSE-MIT", "LICENSE-APACHE"] {
        let licence = read(text);
        assert!(notice.contains(licence.trim()), "{text}");
        assert_eq!(read(&format!("rust/{text}")), licence);
    }
    for text in ["NOTICE", "CHANGELOG.md"] {
        assert_eq!(read(&format!("rust/{text}")), read(text));
    }
}
