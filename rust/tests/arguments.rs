//! How much plumbing the sources have: what `bench/arguments` counts stays within limits.

mod common;

use std::collections::HashMap;
use std::process::Command;

use common::root;

/// The counts as they are. A change may lower one, and then lowers its limit here; none rises.
const LIMITS: &[(&str, usize)] = &[
    ("not exported, more than 6 arguments", 147),
    ("exported, more than 6 arguments", 18),
    ("not exported, more than 8 arguments", 96),
    ("exported, more than 8 arguments", 15),
    ("not exported, more than 10 arguments", 78),
    ("exported, more than 10 arguments", 14),
    ("lines that are one argument", 2893),
    ("contract clauses of more than 160 characters", 239),
];

/// The crates of the searches and of the writers: none of their functions has more than ten arguments.
const SHORT: &[&str] = &["search", "visits"];

/// What the script prints: counts by what is counted, and below them the functions with more than ten arguments.
fn counted() -> (HashMap<String, usize>, Vec<String>) {
    let output = Command::new(root().join("bench/arguments"))
        .output()
        .expect("bench/arguments can be started");
    assert!(output.status.success(), "{output:?}");
    let printed = String::from_utf8(output.stdout).expect("it prints text");
    let mut counts = HashMap::new();
    let mut functions = Vec::new();
    for line in printed.lines() {
        match line.split_once(": ") {
            Some((what, number)) => {
                counts.insert(what.to_owned(), number.parse().unwrap());
            }
            None => functions.push(line.to_owned()),
        }
    }
    (counts, functions)
}

#[test]
fn no_count_rises() {
    let (counts, _) = counted();
    for &(what, limit) in LIMITS {
        let count = counts[what];
        assert!(count <= limit, "{what}: {count}, and the limit is {limit}");
    }
}

#[test]
fn the_worst_are_named() {
    let (counts, functions) = counted();
    assert_eq!(
        functions.len(),
        counts["not exported, more than 10 arguments"]
    );
    // The sources are read, and not only some.
    assert!(counts["functions that are not exported"] > 742);
    assert!(counts["exported functions"] > 20);
    for line in functions {
        let (number, name) = line.trim().split_once(' ').expect("a number and a name");
        assert!(number.parse::<usize>().unwrap() > 10, "{line}");
        let (name, _) = name.split_once("::").expect("a crate and a function");
        assert!(!SHORT.contains(&name), "{line}");
    }
}
