//! The refusals of the C header are those of the crate: names, numbers and texts.

mod common;

use std::fs;

use common::root;
use parallel_moves::Refusal;

/// What stands between two texts.
fn between<'a>(text: &'a str, start: &str, end: &str) -> &'a str {
    let (_, after) = text.split_once(start).unwrap();
    after.split_once(end).unwrap().0
}

/// `NotANumber` as C has it.
fn in_capitals(name: &str) -> String {
    let mut capitals = "PARALLEL_MOVES".to_owned();
    for letter in name.chars() {
        if letter.is_uppercase() {
            capitals.push('_');
        }
        capitals.push(letter.to_ascii_uppercase());
    }
    capitals
}

fn refusals() -> impl Iterator<Item = Refusal> {
    let all = (1..=u8::MAX).filter_map(Refusal::of_number);
    all.filter(|refusal| !matches!(refusal, Refusal::Other(_)))
}

#[test]
fn names_and_numbers() {
    let header = fs::read_to_string(root().join("c/parallel_moves.h")).unwrap();
    let list = between(&header, "enum parallel_moves_refusal {\n", "};");
    let listed: Vec<&str> = list
        .lines()
        .map(|line| line.trim().trim_end_matches(','))
        .collect();
    let expected: Vec<String> = refusals()
        .map(|refusal| {
            let name = in_capitals(&format!("{refusal:?}"));
            format!("{name} = {}", refusal.number())
        })
        .collect();
    assert_eq!(listed, expected);
    assert_eq!(expected.len(), 24);
}

#[test]
fn texts() {
    let header = fs::read_to_string(root().join("c/parallel_moves.h")).unwrap();
    let function = between(&header, "*parallel_moves_refusal_text(", "default:");
    for refusal in refusals() {
        let case = format!("case {}:", in_capitals(&format!("{refusal:?}")));
        // A constant that goes over several lines is in several parts.
        let text = between(function, &case, ";");
        let parts: Vec<&str> = text.split('"').skip(1).step_by(2).collect();
        assert_eq!(parts.concat(), refusal.words());
    }
}
