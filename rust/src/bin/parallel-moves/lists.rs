//! Lists of edits, from text as `resolve` prints it.

use std::collections::BTreeMap;

use parallel_moves::{Fault, Refusal};

/// The lists of an answer.
#[derive(Default)]
pub struct Lists {
    /// By the number of their patch.
    pub of_patches: BTreeMap<u32, List>,
    /// What the last line says, if it is `refused` and a number.
    pub refusal: Option<Refusal>,
}

/// The edits of a patch.
#[derive(Default)]
pub struct List {
    /// As words; 0, which is no edit's, for a line that is none.
    pub words: Vec<u64>,
    /// The lines that they stand in, counted from 1.
    lines: Vec<usize>,
    /// The line where the patch begins a second time, if it does.
    pub again: Option<usize>,
}

impl List {
    /// The line of an edit.
    pub fn line(&self, index: usize) -> Option<usize> {
        self.lines.get(index).copied()
    }

    /// What is wrong, with its line if it is an edit.
    pub fn located(&self, fault: Fault) -> String {
        let line = match fault {
            Fault::Edit { index, .. } => self.line(index),
            _ => None,
        };
        match line {
            Some(line) => format!("line {line}: {fault}"),
            None => fault.to_string(),
        }
    }
}

impl Lists {
    /// A line `patch` begins the list of the patch whose number follows, or else of the next
    /// one. Edits before the first are of patch 1.
    pub fn of(answer: &str) -> Lists {
        let mut lists = Lists::default();
        let mut number: u32 = 1;
        // The lines of a list that stands there a second time belong to none.
        let mut second = false;
        let mut texts = (1..).zip(answer.lines()).peekable();
        while let Some((line, text)) = texts.next() {
            let mut words = text.split_whitespace();
            if words.next() == Some("patch") {
                let next = match lists.of_patches.is_empty() {
                    true => 1,
                    false => number.saturating_add(1),
                };
                let said = words.next().and_then(digits);
                number = said.unwrap_or(next);
                second = lists.of_patches.contains_key(&number);
                let list = lists.of_patches.entry(number).or_default();
                if second {
                    list.again.get_or_insert(line);
                }
                continue;
            }
            if texts.peek().is_none() {
                lists.refusal = refusal(text);
                if lists.refusal.is_some() {
                    break;
                }
            }
            if !second {
                let list = lists.of_patches.entry(number).or_default();
                list.words.push(word_of(text));
                list.lines.push(line);
            }
        }
        lists
    }
}

/// The refusal that a line `refused` with its number says.
fn refusal(line: &str) -> Option<Refusal> {
    let mut words = line.split_whitespace();
    match (words.next(), words.next(), words.next()) {
        (Some("refused"), Some(number), None) => Refusal::of_number(digits(number)?),
        _ => None,
    }
}

/// The word of an edit's line; 0, which is no edit's, of any other.
fn word_of(line: &str) -> u64 {
    let mut words = line.split_whitespace();
    let parts: [&str; 5] = std::array::from_fn(|_| words.next().unwrap_or(""));
    let any = |word| place(word, 'r').or_else(|| place(word, 's'));
    let value = |word: &str| digits(word).filter(|&value: &u64| value < 4096);
    let fields = match parts {
        ["M", to, from, v, ""] => any(to).zip(any(from)).zip(value(v)).map(|(p, v)| (1, p, v)),
        ["R", to, v, "", ""] => any(to).zip(value(v)).map(|(to, v)| (2, (to, 0), v)),
        ["S", to, from, "", ""] => place(to, 's').zip(place(from, 'r')).map(|p| (3, p, 0)),
        ["L", to, from, "", ""] => place(to, 'r').zip(place(from, 's')).map(|p| (4, p, 0)),
        _ => None,
    };
    fields.map_or(0, |(kind, (to, from), v)| {
        ((v * 16_384 + from) * 16_384 + to) * 8 + kind
    })
}

/// The place code of a printed place.
fn place(word: &str, kind: char) -> Option<u64> {
    let index: u64 = digits(word.strip_prefix(kind)?)?;
    (index < 8192).then_some(index * 2 + u64::from(kind == 'r'))
}

/// A number in digits alone.
fn digits<T: std::str::FromStr>(word: &str) -> Option<T> {
    let digits = Some(word).filter(|word| word.bytes().all(|byte| byte.is_ascii_digit()));
    digits?.parse().ok()
}
