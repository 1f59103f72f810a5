//! A patch under construction.

use std::iter::FusedIterator;
use std::{fmt, slice};

use crate::entity::{Allocation, RegUnit, Value};

/// A patch with as many entries is accepted, one with more is refused.
const MOST_ENTRIES: usize = 128;
const MOST_UNITS: usize = 512;

/// A patch: the units that are free while it is carried out, and its entries,
/// which are all done at once.
///
/// Make one and use it again with [`Patch::clear`]: it keeps its memory, so that
/// no call allocates. Nothing is tested before it is given to
/// [`ParallelMoves::resolve`](crate::ParallelMoves::resolve), which takes any.
///
/// ```
/// use parallel_moves::{Allocation, Patch, PhysReg, RegUnit, Value};
///
/// let reg = |index| Allocation::reg(PhysReg::new(index));
/// let mut patch = Patch::new();
/// patch.add_free_unit(RegUnit::new(2));
/// patch.add_move(reg(0), reg(1), Value::new(0));
/// patch.add_move(reg(1), reg(0), Value::new(1));
/// assert_eq!(patch.len(), 2);
/// let entries: Vec<String> = patch.entries().map(|entry| entry.to_string()).collect();
/// assert_eq!(entries, ["move v0 from r0 to r1", "move v1 from r1 to r0"]);
/// patch.clear();
/// assert!(patch.is_empty());
/// ```
#[derive(Clone, PartialEq, Eq, Hash)]
pub struct Patch {
    pub(crate) free: Vec<RegUnit>,
    /// `0 source destination value`, or `1 destination value 0`.
    pub(crate) entries: Vec<[u32; 4]>,
}

impl Patch {
    /// A patch without free units and entries.
    #[must_use]
    pub fn new() -> Self {
        Patch {
            free: Vec::with_capacity(MOST_UNITS),
            entries: Vec::with_capacity(MOST_ENTRIES),
        }
    }

    /// A patch without free units and entries, which is given memory as it grows.
    pub(crate) fn empty() -> Self {
        Patch {
            free: Vec::new(),
            entries: Vec::new(),
        }
    }

    /// Starts anew, without free units and entries. This is the original's
    /// `new_parallel_move`.
    #[inline]
    pub fn clear(&mut self) {
        self.free.clear();
        self.entries.clear();
    }

    /// Calls a unit free: what it holds before the patch is not needed. Units may be
    /// given in any order, but each once, else the patch is refused.
    ///
    /// ```
    /// use parallel_moves::{Patch, RegUnit};
    ///
    /// let mut patch = Patch::new();
    /// [7, 2, 4].map(RegUnit::new).map(|unit| patch.add_free_unit(unit));
    /// assert_eq!(patch.free_units(), [2, 4, 7].map(RegUnit::new));
    /// ```
    #[inline]
    pub fn add_free_unit(&mut self, unit: RegUnit) {
        // Mostly they are given rising.
        if self.free.last().is_none_or(|&last| last < unit) {
            self.free.push(unit);
        } else {
            let at = self.free.partition_point(|&earlier| earlier <= unit);
            self.free.insert(at, unit);
        }
    }

    /// Calls just these units free, as they are listed: rising, else the patch is
    /// refused.
    #[inline]
    pub fn set_free_units(&mut self, units: impl IntoIterator<Item = RegUnit>) {
        self.free.clear();
        self.free.extend(units);
    }

    /// Adds a move: `dest` is to hold what `source` holds before the patch,
    /// which is `value`.
    #[inline]
    pub fn add_move(&mut self, source: Allocation, dest: Allocation, value: Value) {
        self.entries.push([0, source.code, dest.code, value.0]);
    }

    /// Adds a rebuild: `value` is to be rebuilt in `dest`.
    #[inline]
    pub fn add_remat(&mut self, dest: Allocation, value: Value) {
        self.entries.push([1, dest.code, value.0, 0]);
    }

    /// Adds an entry, as [`Patch::entries`] gives it.
    #[inline]
    pub fn add_entry(&mut self, entry: Entry) {
        match entry {
            Entry::Move {
                source,
                dest,
                value,
            } => self.add_move(source, dest, value),
            Entry::Remat { dest, value } => self.add_remat(dest, value),
        }
    }

    /// Calls units free, in whatever order and however often: what they hold before the
    /// patch is not needed.
    ///
    /// ```
    /// use parallel_moves::{Patch, PhysReg, Value};
    ///
    /// let [r0, r1] = [0, 1].map(PhysReg::new);
    /// let mut patch = Patch::new();
    /// patch.free(&[4, 2]).free(&[4]).move_(r0, r1, Value::new(0));
    /// let words = "Patch { free: [unit2, unit4], entries: [\"r0 to r1, %0\"] }";
    /// assert_eq!(format!("{patch:?}"), words);
    /// ```
    pub fn free(&mut self, units: &[u32]) -> &mut Self {
        self.free.extend(units.iter().map(|&unit| RegUnit(unit)));
        self.free.sort_unstable();
        self.free.dedup();
        self
    }

    /// Adds a move, as [`Patch::add_move`] does.
    #[inline]
    pub fn move_(
        &mut self,
        from: impl Into<Allocation>,
        to: impl Into<Allocation>,
        value: Value,
    ) -> &mut Self {
        self.add_move(from.into(), to.into(), value);
        self
    }

    /// Adds a rebuild, as [`Patch::add_remat`] does.
    #[inline]
    pub fn remat(&mut self, to: impl Into<Allocation>, value: Value) -> &mut Self {
        self.add_remat(to.into(), value);
        self
    }

    /// The units that are called free, as the patch is given with them.
    #[inline]
    #[must_use]
    pub fn free_units(&self) -> &[RegUnit] {
        &self.free
    }

    /// The entries, in the order in which they were added.
    #[inline]
    pub fn entries(&self) -> Entries<'_> {
        Entries {
            entries: self.entries.iter(),
        }
    }

    /// How many entries were added.
    #[inline]
    #[must_use]
    pub fn len(&self) -> usize {
        self.entries.len()
    }

    /// Whether no entry was added.
    #[inline]
    #[must_use]
    pub fn is_empty(&self) -> bool {
        self.entries.is_empty()
    }
}

impl Default for Patch {
    fn default() -> Self {
        Patch::new()
    }
}

impl<'a> IntoIterator for &'a Patch {
    type Item = Entry;
    type IntoIter = Entries<'a>;

    #[inline]
    fn into_iter(self) -> Entries<'a> {
        self.entries()
    }
}

impl Extend<Entry> for Patch {
    fn extend<T: IntoIterator<Item = Entry>>(&mut self, entries: T) {
        entries.into_iter().for_each(|entry| self.add_entry(entry));
    }
}

impl fmt::Debug for Patch {
    fn fmt(&self, f: &mut fmt::Formatter<'_>) -> fmt::Result {
        let entries = self.entries().map(|entry| match entry {
            Entry::Move {
                source,
                dest,
                value,
            } => format!("{source} to {dest}, {value}"),
            Entry::Remat { dest, value } => format!("{value} in {dest}"),
        });
        f.debug_struct("Patch")
            .field("free", &self.free)
            .field("entries", &entries.collect::<Vec<_>>())
            .finish()
    }
}

/// An entry of a patch. It is printed as in the text of a job.
#[derive(Clone, Copy, Debug, PartialEq, Eq, PartialOrd, Ord, Hash)]
pub enum Entry {
    /// A move: `dest` is to hold what `source` holds before the patch, which is `value`.
    Move {
        /// The place read.
        source: Allocation,
        /// The place written.
        dest: Allocation,
        /// The value that it carries.
        value: Value,
    },
    /// A rebuild: `value` is to be rebuilt in `dest`.
    Remat {
        /// The place written.
        dest: Allocation,
        /// The value that is rebuilt.
        value: Value,
    },
}

impl Entry {
    /// The entry of its numbers.
    pub(crate) fn of_numbers([kind, first, second, third]: [u32; 4]) -> Self {
        let place = |code| Allocation { code };
        match kind {
            0 => Entry::Move {
                source: place(first),
                dest: place(second),
                value: Value(third),
            },
            _ => Entry::Remat {
                dest: place(first),
                value: Value(second),
            },
        }
    }

    /// The place that it reads: a move's source.
    #[must_use]
    pub fn source(self) -> Option<Allocation> {
        match self {
            Entry::Move { source, .. } => Some(source),
            Entry::Remat { .. } => None,
        }
    }

    /// The place that it writes.
    #[must_use]
    pub fn dest(self) -> Allocation {
        match self {
            Entry::Move { dest, .. } | Entry::Remat { dest, .. } => dest,
        }
    }

    /// Its value.
    #[must_use]
    pub fn value(self) -> Value {
        match self {
            Entry::Move { value, .. } | Entry::Remat { value, .. } => value,
        }
    }
}

impl fmt::Display for Entry {
    fn fmt(&self, f: &mut fmt::Formatter<'_>) -> fmt::Result {
        let (dest, value) = (self.dest(), self.value().index());
        match self.source() {
            Some(source) => write!(f, "move v{value} from {source} to {dest}"),
            None => write!(f, "rebuild v{value} in {dest}"),
        }
    }
}

/// The entries of a patch, one after the other.
#[derive(Clone)]
#[must_use = "iterators are lazy"]
pub struct Entries<'a> {
    entries: slice::Iter<'a, [u32; 4]>,
}

impl Iterator for Entries<'_> {
    type Item = Entry;

    #[inline]
    fn next(&mut self) -> Option<Entry> {
        self.entries.next().copied().map(Entry::of_numbers)
    }

    #[inline]
    fn size_hint(&self) -> (usize, Option<usize>) {
        self.entries.size_hint()
    }
}

impl DoubleEndedIterator for Entries<'_> {
    #[inline]
    fn next_back(&mut self) -> Option<Entry> {
        self.entries.next_back().copied().map(Entry::of_numbers)
    }
}

impl ExactSizeIterator for Entries<'_> {}

impl FusedIterator for Entries<'_> {}

impl fmt::Debug for Entries<'_> {
    fn fmt(&self, f: &mut fmt::Formatter<'_>) -> fmt::Result {
        f.debug_list().entries(self.clone()).finish()
    }
}
