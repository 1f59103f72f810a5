//! Edits from their text.

use std::error::Error;
use std::fmt;
use std::str::FromStr;

use super::Edit;
use crate::entity::{Allocation, MOST, PhysReg, SpillSlot, Value};

/// The edit that a line says, as [`Display`](fmt::Display) prints it. How many spaces stand
/// between its words doesn't matter.
///
/// ```
/// use parallel_moves::Edit;
///
/// let edit: Edit = "M s0 r1 7".parse().unwrap();
/// assert_eq!(edit.to_string(), "M s0 r1 7");
/// let error = "M s0 r1".parse::<Edit>().unwrap_err();
/// assert!(error.to_string().starts_with("`M s0 r1` is no edit"));
/// ```
impl FromStr for Edit {
    type Err = ParseEditError;

    fn from_str(text: &str) -> Result<Self, ParseEditError> {
        edit(text).ok_or_else(|| ParseEditError {
            text: text.to_owned(),
        })
    }
}

/// The words of the longest edit, and one that is too many.
const MOST_WORDS: usize = 5;

fn edit(text: &str) -> Option<Edit> {
    let mut words = text.split_whitespace();
    let words: [&str; MOST_WORDS] = std::array::from_fn(|_| words.next().unwrap_or(""));
    match words {
        ["M", to, from, value, ""] => Some(Edit::Move {
            to: place(to)?,
            from: place(from)?,
            value: Value::new(index(value)?),
        }),
        ["R", to, value, "", ""] => Some(Edit::Rematerialize {
            to: place(to)?,
            value: Value::new(index(value)?),
        }),
        ["S", to, from, "", ""] => Some(Edit::EmergencySpill {
            to: slot(to)?,
            from: register(from)?,
        }),
        ["L", to, from, "", ""] => Some(Edit::EmergencyReload {
            to: register(to)?,
            from: slot(from)?,
        }),
        _ => None,
    }
}

fn place(word: &str) -> Option<Allocation> {
    let slot = || slot(word).map(Allocation::spillslot);
    register(word).map(Allocation::reg).or_else(slot)
}

fn register(word: &str) -> Option<PhysReg> {
    index(word.strip_prefix('r')?).map(PhysReg::new)
}

fn slot(word: &str) -> Option<SpillSlot> {
    index(word.strip_prefix('s')?).map(SpillSlot::new)
}

/// An index, in digits alone.
fn index(word: &str) -> Option<usize> {
    let digits = word.bytes().all(|byte| byte.is_ascii_digit());
    let index = word.parse().ok().filter(|_| digits);
    index.filter(|&index| index < MOST)
}

/// A text that is no edit.
#[derive(Clone, Debug, PartialEq, Eq)]
pub struct ParseEditError {
    text: String,
}

/// Prints the text, and how edits are written.
impl fmt::Display for ParseEditError {
    fn fmt(&self, f: &mut fmt::Formatter<'_>) -> fmt::Result {
        write!(
            f,
            "`{}` is no edit: those are `M place place value`, `R place value`, `S slot register` \
             and `L register slot`, with `r0` for a register and `s0` for a slot",
            self.text.escape_debug()
        )
    }
}

impl Error for ParseEditError {}

#[cfg(test)]
mod tests {
    use super::super::Edit;
    use crate::entity::{Allocation, MOST, PhysReg, SpillSlot, Value};

    /// Edits of every kind, with small and with the greatest indices.
    fn edits() -> Vec<Edit> {
        let mut edits = Vec::new();
        let numbers = [0, 1, 9, 10, 4095, 8191, MOST - 1];
        for (at, &one) in numbers.iter().enumerate() {
            let other = numbers[numbers.len() - 1 - at];
            let value = Value::new(other);
            let (reg, slot) = (PhysReg::new(one), SpillSlot::new(other));
            let places: [Allocation; 2] = [reg.into(), slot.into()];
            for to in places {
                let moves = places.map(|from| Edit::Move { to, from, value });
                edits.extend(moves);
                edits.push(Edit::Rematerialize { to, value });
            }
            edits.push(Edit::EmergencySpill {
                to: slot,
                from: reg,
            });
            edits.push(Edit::EmergencyReload {
                to: reg,
                from: slot,
            });
        }
        edits
    }

    #[test]
    fn what_is_printed_is_read() {
        for edit in edits() {
            assert_eq!(edit.to_string().parse(), Ok(edit));
            assert_eq!(format!("  {edit}\n").parse(), Ok(edit));
        }
    }

    #[test]
    fn what_is_read_is_printed() {
        for text in ["M r0 s12 3", "R s7 4095", "S s2 r31", "L r31 s2"] {
            assert_eq!(text.parse::<Edit>().unwrap().to_string(), text);
        }
    }

    #[test]
    fn other_texts_are_none() {
        for text in [
            "",
            "M",
            "M r0 r1",
            "M r0 r1 2 3",
            "M r0 r1 -2",
            "M r0 r1 +2",
            "M r0 r1 %2",
            "M r0 r 2",
            "M r0 x1 2",
            "M r0 r1 2147483648",
            "R r2147483648 0",
            "R r0",
            "S r0 s0",
            "S s0 r0 0",
            "S s0 s0",
            "L s0 r0",
            "m r0 r1 2",
            "patch 1 edits 3 made 1",
            "M r0,r1 2",
            "M r٣ r1 2",
        ] {
            let error = text.parse::<Edit>().unwrap_err();
            assert!(error.to_string().contains("is no edit"), "{text}");
        }
    }
}
