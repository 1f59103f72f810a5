//! Edits.

mod parsing;

pub use parsing::ParseEditError;

use std::fmt;
use std::iter::FusedIterator;
use std::{mem, slice};

use crate::entity::{Allocation, AllocationKind, PhysReg, SpillSlot, Value};

/// One step of a resolved patch.
///
/// It is printed as the program `resolve` prints it, and read from such a text:
///
/// ```
/// use parallel_moves::{Edit, PhysReg, SpillSlot, Value};
///
/// let (r1, r2) = (PhysReg::new(1), PhysReg::new(2));
/// let (s0, s4) = (SpillSlot::new(0), SpillSlot::new(4));
/// let value = Value::new(7);
/// let edit = Edit::Move { to: s0.into(), from: r1.into(), value };
/// assert_eq!(edit.to_string(), "M s0 r1 7");
/// assert_eq!(Edit::Rematerialize { to: r1.into(), value }.to_string(), "R r1 7");
/// assert_eq!(Edit::EmergencySpill { to: s4, from: r2 }.to_string(), "S s4 r2");
/// assert_eq!(Edit::EmergencyReload { to: r2, from: s4 }.to_string(), "L r2 s4");
/// assert_eq!("M s0 r1 7".parse(), Ok(edit));
/// ```
#[derive(Clone, Copy, Debug, PartialEq, Eq, PartialOrd, Ord, Hash)]
#[repr(u32)]
pub enum Edit {
    /// The contents of `from` go to `to`. `from` is read whole before `to` is
    /// written: they may share units.
    Move {
        /// The place written.
        to: Allocation,
        /// The place read.
        from: Allocation,
        /// The value that it carries.
        value: Value,
    } = 1,
    /// A register that the patch must not change is saved in an emergency slot.
    EmergencySpill {
        /// The emergency slot written.
        to: SpillSlot,
        /// The register saved.
        from: PhysReg,
    } = 3,
    /// A saved register is loaded back from its emergency slot.
    EmergencyReload {
        /// The register loaded.
        to: PhysReg,
        /// The emergency slot read.
        from: SpillSlot,
    } = 4,
    /// A value is rebuilt in `to`.
    Rematerialize {
        /// The place written.
        to: Allocation,
        /// The value that is rebuilt.
        value: Value,
    } = 2,
}

impl Edit {
    /// The edit of a word, `((value * 2^14 + from) * 2^14 + to) * 8 + kind`,
    /// with places by their codes. The kinds are the variants' numbers.
    ///
    /// No jump tells them apart, since in a list of edits the kinds change from
    /// one to the next in no way that a processor could foresee.
    #[inline]
    fn of_word(word: u64) -> Self {
        let kind = (word % 8) as u32;
        let to = (word / 8 % 16_384) as u32;
        let from = (word / 131_072 % 16_384) as u32;
        let value = (word / 2_147_483_648 % 4096) as u32;
        if !(1..=4).contains(&kind) {
            no_edit(kind);
        }
        // A place by its code, but a slot or a register alone by its number.
        let half = u32::from(kind >= 3);
        let second = if kind == 2 { value } else { from >> half };
        // SAFETY: the variants' numbers are 1 to 4, and `kind` is one of them.
        // With `repr(u32)` an edit is its number and then its fields as they are
        // declared, each of which is a `repr(transparent)` of a `u32`, and any
        // `u32` will do.
        unsafe { mem::transmute::<[u32; 4], Edit>([kind, to >> half, second, value]) }
    }
}

impl Edit {
    /// Its word, `((value * 2^14 + from) * 2^14 + to) * 8 + kind`, with places by their
    /// codes: what [`examine`](crate::examine) is given. 0, which is no edit's word, if a
    /// place or the value is too large to have one.
    #[must_use]
    pub fn word(&self) -> u64 {
        let slot = |slot: &SpillSlot| slot.index() as u64 * 2;
        let register = |register: &PhysReg| register.index() as u64 * 2 + 1;
        let place = |place: &Allocation| match place.kind() {
            AllocationKind::PhysReg(r) => register(&r),
            AllocationKind::SpillSlot(s) => slot(&s),
        };
        let number = |value: &Value| value.index() as u64;
        let (kind, to, from, value) = match self {
            Edit::Move { to, from, value } => (1, place(to), place(from), number(value)),
            Edit::Rematerialize { to, value } => (2, place(to), 0, number(value)),
            Edit::EmergencySpill { to, from } => (3, slot(to), register(from), 0),
            Edit::EmergencyReload { to, from } => (4, register(to), slot(from), 0),
        };
        if to < 16_384 && from < 16_384 && value < 4096 {
            ((value * 16_384 + from) * 16_384 + to) * 8 + kind
        } else {
            0
        }
    }
}

#[cold]
fn no_edit(kind: u32) -> ! {
    unreachable!("a word of kind {kind} is no edit, and the library gives none")
}

impl fmt::Display for Edit {
    fn fmt(&self, f: &mut fmt::Formatter<'_>) -> fmt::Result {
        match self {
            Edit::Move { to, from, value } => write!(f, "M {to} {from} {}", value.index()),
            Edit::Rematerialize { to, value } => write!(f, "R {to} {}", value.index()),
            Edit::EmergencySpill { to, from } => write!(f, "S {to} {from}"),
            Edit::EmergencyReload { to, from } => write!(f, "L {to} {from}"),
        }
    }
}

/// The edits that carry a patch out, to be done in their order.
#[derive(Clone, Copy, PartialEq, Eq, Hash)]
#[must_use = "a patch is carried out only if all its edits are done"]
pub struct Edits<'a> {
    words: &'a [u64],
}

impl<'a> Edits<'a> {
    /// The edits of these words.
    #[inline]
    pub(crate) fn new(words: &'a [u64]) -> Self {
        Edits { words }
    }

    /// Their words, as the library gives them: each edit as
    /// `((value * 2^14 + from) * 2^14 + to) * 8 + kind`, with kind 1 for `M`, 2 for `R`,
    /// 3 for `S` and 4 for `L`. [`cheaper`](crate::cheaper) takes them.
    #[inline]
    #[must_use]
    pub fn words(&self) -> &'a [u64] {
        self.words
    }

    /// The edits, one after the other.
    #[inline]
    pub fn iter(&self) -> Iter<'a> {
        Iter {
            words: self.words.iter(),
        }
    }

    /// How many there are.
    #[inline]
    #[must_use]
    pub fn len(&self) -> usize {
        self.words.len()
    }

    /// Whether there are none.
    #[inline]
    #[must_use]
    pub fn is_empty(&self) -> bool {
        self.words.is_empty()
    }
}

impl<'a> IntoIterator for Edits<'a> {
    type Item = Edit;
    type IntoIter = Iter<'a>;

    #[inline]
    fn into_iter(self) -> Iter<'a> {
        self.iter()
    }
}

impl<'a> IntoIterator for &Edits<'a> {
    type Item = Edit;
    type IntoIter = Iter<'a>;

    #[inline]
    fn into_iter(self) -> Iter<'a> {
        self.iter()
    }
}

impl fmt::Debug for Edits<'_> {
    fn fmt(&self, f: &mut fmt::Formatter<'_>) -> fmt::Result {
        self.iter().fmt(f)
    }
}

/// The edits of a patch, one after the other.
#[derive(Clone)]
#[must_use = "iterators are lazy"]
pub struct Iter<'a> {
    words: slice::Iter<'a, u64>,
}

impl Iterator for Iter<'_> {
    type Item = Edit;

    #[inline]
    fn next(&mut self) -> Option<Edit> {
        self.words.next().map(|&word| Edit::of_word(word))
    }

    #[inline]
    fn size_hint(&self) -> (usize, Option<usize>) {
        self.words.size_hint()
    }
}

impl DoubleEndedIterator for Iter<'_> {
    #[inline]
    fn next_back(&mut self) -> Option<Edit> {
        self.words.next_back().map(|&word| Edit::of_word(word))
    }
}

impl ExactSizeIterator for Iter<'_> {}

impl FusedIterator for Iter<'_> {}

impl fmt::Debug for Iter<'_> {
    fn fmt(&self, f: &mut fmt::Formatter<'_>) -> fmt::Result {
        f.debug_list().entries(self.clone()).finish()
    }
}

#[cfg(test)]
mod tests {
    use super::Edit;
    use crate::entity::{Allocation, PhysReg, SpillSlot, Value};

    #[test]
    fn each_word_is_its_edit() {
        for (to, from, value) in [
            (0, 0, 0),
            (3, 8, 7),
            (12_286, 1_023, 4_095),
            (16_383, 16_382, 1),
        ] {
            let word = |kind| {
                let places = u64::from(from) * 16_384 + u64::from(to);
                Edit::of_word((u64::from(value) * 268_435_456 + places) * 8 + kind)
            };
            let place = |code| Allocation { code };
            let value = Value(value);
            let (slot, reg) = (
                |code: u32| SpillSlot(code / 2),
                |code: u32| PhysReg(code / 2),
            );
            let (to_place, from_place) = (place(to), place(from));
            let moved = Edit::Move {
                to: to_place,
                from: from_place,
                value,
            };
            assert_eq!(word(1), moved);
            assert_eq!(
                word(2),
                Edit::Rematerialize {
                    to: to_place,
                    value
                }
            );
            let spilled = Edit::EmergencySpill {
                to: slot(to),
                from: reg(from),
            };
            assert_eq!(word(3), spilled);
            let reloaded = Edit::EmergencyReload {
                to: reg(to),
                from: slot(from),
            };
            assert_eq!(word(4), reloaded);
        }
    }

    #[test]
    #[should_panic = "is no edit"]
    fn a_head_is_no_edit() {
        let _ = Edit::of_word(8);
    }
}
