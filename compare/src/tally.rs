//! Counts over many answers.

use std::collections::BTreeMap;
use std::fmt;

/// What a number of answers come to.
#[derive(Default)]
pub struct Tally {
    answers: u64,
    patches: u64,
    edits: u64,
    /// Answers by their last line: `accepted`, `refused N` or `panic`.
    outcomes: BTreeMap<String, u64>,
    /// Patches by how many edits they have: none, then up to 1, 3, 7, 15, ..
    patches_by_edits: BTreeMap<u64, u64>,
    /// Edits by kind.
    edits_by_kind: BTreeMap<char, u64>,
}

impl Tally {
    /// Takes in an answer.
    pub fn add(&mut self, answer: &str) {
        self.answers += 1;
        let mut outcome = "accepted".to_owned();
        for line in answer.lines() {
            if let Some(header) = line.strip_prefix("patch ") {
                let edits = header.split(' ').nth(2).and_then(|word| word.parse().ok());
                let most = (edits.unwrap_or(0u64) + 1).next_power_of_two() - 1;
                self.patches += 1;
                *self.patches_by_edits.entry(most).or_default() += 1;
            } else if line.starts_with("refused ") {
                outcome = line.replace(' ', " no. ");
            } else if line.starts_with("panic") {
                outcome = "panic".to_owned();
            } else {
                self.edits += 1;
                let kind = line.chars().next().unwrap_or('?');
                *self.edits_by_kind.entry(kind).or_default() += 1;
            }
        }
        *self.outcomes.entry(outcome).or_default() += 1;
    }

    /// How many answers end in a panic.
    pub fn panics(&self) -> u64 {
        self.outcomes.get("panic").copied().unwrap_or(0)
    }
}

impl fmt::Display for Tally {
    fn fmt(&self, f: &mut fmt::Formatter<'_>) -> fmt::Result {
        writeln!(f, "answers {}", self.answers)?;
        let mut outcomes: Vec<_> = self.outcomes.iter().collect();
        outcomes.sort_by_key(|(outcome, _)| {
            let number = outcome.rsplit(' ').next().and_then(|n| n.parse().ok());
            (number.unwrap_or(0u64), (*outcome).clone())
        });
        for (outcome, count) in outcomes {
            writeln!(f, "  {outcome}: {count}")?;
        }
        writeln!(f, "accepted patches {}", self.patches)?;
        for (most, count) in &self.patches_by_edits {
            writeln!(f, "  with {} to {most} edits: {count}", most / 2 + most % 2)?;
        }
        writeln!(f, "edits {}", self.edits)?;
        for (kind, count) in &self.edits_by_kind {
            writeln!(f, "  {kind}: {count}")?;
        }
        writeln!(f, "panics {}", self.panics())
    }
}
