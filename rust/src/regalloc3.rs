//! The calls of regalloc3's `parallel_moves`, for compilers that were written for it.
//!
//! [`ParallelMoves`] has the original's method names. What it doesn't have are the traits
//! `RegInfo` and `Function`: they become the bytes of a target and a function, which a
//! [`JobBuilder`] makes, once for each function. So its calls are given neither. Nothing
//! panics: what the original asserts is refused when it is resolved. `docs/PORTING.md` of
//! the repository has the whole table.
//!
//! ```
//! use parallel_moves::regalloc3::ParallelMoves;
//! use parallel_moves::{JobBuilder, PhysReg, Refusal, RegBank, SpillSlot, TargetBuilder};
//!
//! # fn main() -> Result<(), Refusal> {
//! // ARM's VFP, and two values of the bank of d0 to d15.
//! let mut job = JobBuilder::on(TargetBuilder::named("vfp").expect("it is shipped"));
//! let [v0, v1] = [(); 2].map(|()| job.function().value(RegBank::new(1)));
//! let [d0, d1] = [32, 33].map(PhysReg::new);
//!
//! let mut moves = ParallelMoves::new();
//! moves.prepare(&job)?;
//! moves.new_parallel_move();
//! moves.add_move(d0.into(), d1.into(), v0);
//! moves.add_move(d1.into(), d0.into(), v1);
//! moves.resolve(|_unit| false)?;
//! let edits: Vec<String> = moves.edits().map(|edit| edit.to_string()).collect();
//! assert_eq!(edits, ["M s0 r33 1", "M r33 r32 0", "M r32 s0 1"]);
//! // What `alloc_emergency_spillslot` would have been asked for.
//! assert_eq!(moves.new_spillslots().collect::<Vec<_>>(), [(SpillSlot::new(0), 3)]);
//! # Ok(())
//! # }
//! ```

use std::fmt;

use crate::builder::JobBuilder;
use crate::edit::Iter;
use crate::entity::{Allocation, RegUnit, SpillSlot, Value};
use crate::explain::Explanation;
use crate::parallel_moves::MOST_EDITS;
use crate::patch::Patch;
use crate::refusal::Refusal;
use crate::{Edits, ParallelMoves as Opened};

/// The original keeps one eviction.
const KEPT_EVICTIONS: u32 = 1;

/// The original's `ParallelMoves`: the moves of a function, patch by patch, in the original's
/// order of calls.
///
/// It is a thin layer over [`crate::ParallelMoves`] and [`Patch`], which
/// [`ParallelMoves::opened`] and [`ParallelMoves::patch`] give.
pub struct ParallelMoves {
    /// None before the first function, and where the last was refused.
    moves: Option<Opened>,
    patch: Patch,
    /// The words of the edits of the last patch.
    words: Box<[u64; MOST_EDITS]>,
    count: usize,
    /// How many emergency slots there were before it.
    made_before: usize,
}

impl ParallelMoves {
    /// With no function: [`ParallelMoves::prepare`] is next.
    #[must_use]
    pub fn new() -> Self {
        ParallelMoves {
            moves: None,
            patch: Patch::new(),
            words: Box::new([0; MOST_EDITS]),
            count: 0,
            made_before: 0,
        }
    }

    /// Begins a function, in the same memory: its target, its values and its slots, without
    /// patches. The original is given its `Function` and the number of its spill slots, which
    /// is [`FunctionBuilder::slots`](crate::FunctionBuilder::slots) here.
    ///
    /// # Errors
    ///
    /// As [`JobBuilder::target_and_function`]; then there is no function.
    pub fn prepare(&mut self, function: &JobBuilder) -> Result<(), Refusal> {
        match function.target_and_function() {
            Ok(bytes) => self.prepare_bytes(&bytes),
            Err(error) => {
                self.moves = None;
                Err(error.refusal())
            }
        }
    }

    /// The same of the bytes of a target and a function.
    ///
    /// # Errors
    ///
    /// As [`crate::ParallelMoves::open`]; then there is no function.
    pub fn prepare_bytes(&mut self, target_and_function: &[u8]) -> Result<(), Refusal> {
        self.new_parallel_move();
        (self.count, self.made_before) = (0, 0);
        self.moves = Some(match self.moves.take() {
            Some(moves) => moves.reopen(KEPT_EVICTIONS, target_and_function)?,
            None => Opened::open(KEPT_EVICTIONS, target_and_function)?,
        });
        Ok(())
    }

    /// Begins a patch, without entries.
    pub fn new_parallel_move(&mut self) {
        self.patch.clear();
    }

    /// Adds a move. The original panics, in a build with its assertions, for one from a place
    /// to itself, or to a place that is written already; here the patch is refused.
    pub fn add_move(&mut self, source: Allocation, dest: Allocation, value: Value) {
        self.patch.add_move(source, dest, value);
    }

    /// Adds a rebuild. The original panics for a value that cannot be rebuilt; here the patch
    /// is refused.
    pub fn add_remat(&mut self, dest: Allocation, value: Value) {
        self.patch.add_remat(dest, value);
    }

    /// Resolves the patch. `is_unit_free` is asked of every unit of the target, once, and not
    /// only of those that a search comes by; no unit of a destination may be free. Emergency
    /// slots are not asked for: they are numbered from the function's own slots on, and
    /// [`ParallelMoves::new_spillslots`] tells them.
    ///
    /// # Errors
    ///
    /// As [`crate::ParallelMoves::resolve`], and then there are no edits;
    /// [`Refusal::NamesNothing`] without a function. [`ParallelMoves::explain`] says more.
    pub fn resolve(&mut self, is_unit_free: impl Fn(RegUnit) -> bool) -> Result<(), Refusal> {
        self.count = 0;
        let moves = self.moves.as_mut().ok_or(Refusal::NamesNothing)?;
        let units = (0..moves.opening.job().target.unit_count()).map(RegUnit);
        self.patch
            .set_free_units(units.filter(|&unit| is_unit_free(unit)));
        self.made_before = moves.made();
        let edits = moves.resolve_into(&self.patch, &mut self.words[..])?;
        self.count = edits.len();
        Ok(())
    }

    /// The edits of the resolved patch, in the order in which they are to be done.
    pub fn edits(&self) -> Iter<'_> {
        Edits::new(&self.words[..self.count]).iter()
    }

    /// Why the patch was refused so: which entry, and what is wrong with it. None without a
    /// function.
    #[must_use]
    pub fn explain(&self, refusal: Refusal) -> Option<Explanation> {
        let moves = self.moves.as_ref()?;
        Some(moves.explain(&self.patch, refusal))
    }

    /// The emergency slots that the resolved patch made, with the size log2 that each was made
    /// for: what the original asks `alloc_emergency_spillslot` for.
    pub fn new_spillslots(&self) -> impl Iterator<Item = (SpillSlot, u32)> + '_ {
        let moves = self.moves.as_ref();
        let first = moves.map_or(0, |moves| moves.opening.job().function.slots as usize);
        let made = moves.map_or(0, |moves| moves.made());
        let slots = (first + self.made_before..first + made).map(SpillSlot::new);
        slots.filter_map(|slot| Some((slot, self.slot_size(slot)?)))
    }

    /// The size log2 that an emergency slot was made for; none for one that was not made.
    #[must_use]
    pub fn slot_size(&self, slot: SpillSlot) -> Option<u32> {
        self.moves.as_ref()?.slot_size(slot)
    }

    /// The patch that was begun last, with the units that were free when it was resolved.
    #[must_use]
    pub fn patch(&self) -> &Patch {
        &self.patch
    }

    /// The opened function, for all that the original does not have; none before
    /// [`ParallelMoves::prepare`].
    #[must_use]
    pub fn opened(&mut self) -> Option<&mut Opened> {
        self.moves.as_mut()
    }
}

impl Default for ParallelMoves {
    fn default() -> Self {
        ParallelMoves::new()
    }
}

impl fmt::Debug for ParallelMoves {
    fn fmt(&self, f: &mut fmt::Formatter<'_>) -> fmt::Result {
        f.debug_struct("ParallelMoves")
            .field("patch", &self.patch)
            .field("edits", &self.edits())
            .finish_non_exhaustive()
    }
}
