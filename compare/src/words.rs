//! An answer as words. For each patch a head,
//! `((position * 65536 + made) * 65536 + count) * 8`, and then its edits,
//! `((value * 16384 + from) * 16384 + to) * 8 + kind`, with places by their codes
//! (slot s is 2s, register r is 2r + 1).
//!
//! | kind | edit | to | from | value |
//! |---|---|---|---|---|
//! | 1 | M | any place | any place | any |
//! | 2 | R | any place | 0 | any |
//! | 3 | S | a slot | a register | 0 |
//! | 4 | L | a register | a slot | 0 |

use std::fmt::{self, Write};

/// What words come to.
pub struct Answer {
    pub text: String,
    pub patches: u64,
    pub edits: u64,
    /// Of each patch.
    pub positions: Vec<usize>,
}

/// The text of an answer, or what is wrong with its words.
///
/// This reads the words on its own, so that what ours prints and what ours
/// gives as words are held to the original apart from each other.
pub fn answer(words: &[u64], refusal: u8) -> Result<Answer, String> {
    let mut text = String::with_capacity(20 * words.len() + 16);
    let mut patches = 0;
    let mut edits = 0;
    let mut positions = Vec::new();
    let mut rest = words;
    while let Some((&head, after)) = rest.split_first() {
        if head % 8 != 0 {
            return Err(format!("{head} is no head of a patch"));
        }
        let count = (head / 8 % 65_536) as usize;
        let made = head / 8 / 65_536 % 65_536;
        positions.push((head / 8 / 65_536 / 65_536) as usize);
        let list = after
            .get(..count)
            .ok_or_else(|| format!("{count} edits, but {} words", after.len()))?;
        patches += 1;
        edits += count as u64;
        put(
            &mut text,
            format_args!("patch {patches} edits {count} made {made}\n"),
        );
        for &word in list {
            put_edit(&mut text, word)?;
        }
        rest = &after[count..];
    }
    if refusal != 0 {
        put(&mut text, format_args!("refused {refusal}\n"));
    }
    Ok(Answer {
        text,
        patches,
        edits,
        positions,
    })
}

/// A place as it is printed.
#[derive(Clone, Copy)]
struct Place(u64);

impl Place {
    fn is_slot(self) -> bool {
        self.0 % 2 == 0
    }
}

impl fmt::Display for Place {
    fn fmt(&self, f: &mut fmt::Formatter<'_>) -> fmt::Result {
        let letter = if self.is_slot() { 's' } else { 'r' };
        write!(f, "{letter}{}", self.0 / 2)
    }
}

fn put_edit(text: &mut String, word: u64) -> Result<(), String> {
    let kind = word % 8;
    let to = Place(word / 8 % 16_384);
    let from = Place(word / 8 / 16_384 % 16_384);
    let value = word / 8 / 16_384 / 16_384;
    match kind {
        1 => put(text, format_args!("M {to} {from} {value}\n")),
        2 if from.0 == 0 => put(text, format_args!("R {to} {value}\n")),
        3 if value == 0 && to.is_slot() && !from.is_slot() => {
            put(text, format_args!("S {to} {from}\n"));
        }
        4 if value == 0 && !to.is_slot() && from.is_slot() => {
            put(text, format_args!("L {to} {from}\n"));
        }
        _ => {
            return Err(format!(
                "{word} is no edit (kind {kind} to {to} from {from} value {value})"
            ));
        }
    }
    Ok(())
}

fn put(text: &mut String, arguments: fmt::Arguments) {
    text.write_fmt(arguments)
        .expect("writing to a string does not fail");
}
