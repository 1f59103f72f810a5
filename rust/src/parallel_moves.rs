//! One function, and its patches one after the other.

use std::fmt;

use crate::edit::Edits;
use crate::entity::{Allocation, SpillSlot};
use crate::opening::Opening;
use crate::patch::Patch;
use crate::preview::{Preview, TakeError};
use crate::price::Prices;
use crate::refusal::Refusal;
use crate::sys::{self, Opened, Tables};

/// As many words are enough for every patch's edits: 8 for each of 128 entries.
pub const MOST_EDITS: usize = 1024;

/// Resolves the parallel moves of one function over a target, patch by patch.
///
/// It owns its memory, about half a megabyte on the heap, and remembers which
/// emergency slots the function has, so that a later patch takes them again.
/// Keep one for each function, and [`ParallelMoves::reopen`] it for the next.
///
/// ```
/// use parallel_moves::{Class, JobBuilder, ParallelMoves, Patch, Refusal};
///
/// # fn main() -> Result<(), Refusal> {
/// // Three registers of one bank, whose emergency slots have 2^3 bytes.
/// let mut job = JobBuilder::new();
/// let target = job.target();
/// let bank = target.bank(3);
/// let [r0, r1, r2] = [0, 1, 2].map(|unit| target.register(&[unit]));
/// let top = target.class(Class::of(&[r0, r1, r2]).with_slots());
/// let stack = target.class(Class::of(&[r0, r1, r2]));
/// target.top_level_class(bank, top).stack_class(bank, stack);
///
/// // Two values and no slots, of which one may be made.
/// let function = job.function();
/// let [v0, v1] = [(); 2].map(|()| function.value(bank));
/// function.emergency_slots(1);
/// let mut moves = ParallelMoves::open(1, &job.target_and_function()?)?;
///
/// // Registers 0 and 1 are to change their contents, and register 2 must keep
/// // its own.
/// let mut patch = Patch::new();
/// patch.move_(r0, r1, v0).move_(r1, r0, v1);
/// let edits: Vec<String> = moves.resolve(&patch)?.iter().map(|e| e.to_string()).collect();
/// assert_eq!(edits, ["M s0 r1 1", "M r1 r0 0", "M r0 s0 1"]);
/// assert_eq!(moves.made(), 1);
/// // Of the three registers of the order none would do.
/// assert_eq!(moves.position(), 3);
///
/// // A refused patch has no edits, and the next one is resolved as if it had
/// // not been given.
/// patch.move_(r0, r0, v0);
/// assert_eq!(moves.resolve(&patch), Err(Refusal::SelfMove));
/// let why = moves.explain(&patch, Refusal::SelfMove);
/// assert_eq!(why.to_string(), "entry 3: refused 10: r0 is both source and destination");
/// # Ok(())
/// # }
/// ```
pub struct ParallelMoves {
    pub(crate) tables: Opened,
    /// Where edits are made, before they are handed out.
    pub(crate) list: Box<[u64; MOST_EDITS]>,
    /// What it was opened with.
    pub(crate) opening: Opening,
}

impl ParallelMoves {
    /// Opens a function: the bytes of a target and a function over it, as
    /// `docs/JOB.md` of the repository says, with nothing behind them. Of the
    /// registers that are evicted in its patches, `kept_evictions`, 1 or 2, may be
    /// so at once. The function has no emergency slots yet.
    ///
    /// # Errors
    ///
    /// [`Refusal::NoSuchSetting`], before all else, if `kept_evictions` is neither 1
    /// nor 2; the refusals 1 to 9. Any bytes can be given.
    pub fn open(kept_evictions: u32, target_and_function: &[u8]) -> Result<Self, Refusal> {
        let opened = Tables::new().open(kept_evictions, target_and_function);
        let opening = || Opening::new(kept_evictions, target_and_function);
        with_list(opened, Box::new([0; MOST_EDITS]), opening)
    }

    /// As [`ParallelMoves::open`], of a target that has these prices.
    ///
    /// # Errors
    ///
    /// As [`ParallelMoves::open`], and [`Refusal::OutsidePrice`] if a price is above 65,535:
    /// after the refusals 1 to 7 of the target, and before those of the function.
    ///
    /// ```
    /// use parallel_moves::{ParallelMoves, Prices, Refusal};
    ///
    /// // One register; then a function whose one value is of bank 9.
    /// let target = [1, 1, 3, 0, 1, 1, 0, 0, 1, 0, 2, 0, 1, 0, 0, 0, 0, 1, 0, 1, 0];
    /// let bytes = [&target[..], &[1, 0, 0, 9, 0]].concat();
    /// let open = |moves, bytes: &[u8]| {
    ///     let prices = Prices { moves, remats: 6, spills: 16, reloads: 12 };
    ///     ParallelMoves::open_priced(1, prices, bytes).err()
    /// };
    /// assert_eq!(open(65_536, &bytes), Some(Refusal::OutsidePrice));
    /// assert_eq!(open(65_535, &bytes), Some(Refusal::NamesNothing));
    /// assert_eq!(open(65_536, &bytes[..20]), Some(Refusal::NotANumber));
    /// ```
    pub fn open_priced(
        kept_evictions: u32,
        prices: Prices,
        target_and_function: &[u8],
    ) -> Result<Self, Refusal> {
        let opened =
            Tables::new().open_priced(kept_evictions, prices.numbers(), target_and_function);
        let opening = || Opening::new(kept_evictions, target_and_function);
        with_list(opened, Box::new([0; MOST_EDITS]), opening)
    }

    /// Opens another function in the same memory.
    ///
    /// # Errors
    ///
    /// As [`ParallelMoves::open`]; the memory is then given up.
    pub fn reopen(self, kept_evictions: u32, target_and_function: &[u8]) -> Result<Self, Refusal> {
        let opened = self
            .tables
            .close()
            .open(kept_evictions, target_and_function);
        let opening = || self.opening.again(kept_evictions, target_and_function);
        with_list(opened, self.list, opening)
    }

    /// Opens another function in the same memory, of a target that has these prices.
    ///
    /// # Errors
    ///
    /// As [`ParallelMoves::open_priced`]; the memory is then given up.
    pub fn reopen_priced(
        self,
        kept_evictions: u32,
        prices: Prices,
        target_and_function: &[u8],
    ) -> Result<Self, Refusal> {
        let tables = self.tables.close();
        let opened = tables.open_priced(kept_evictions, prices.numbers(), target_and_function);
        let opening = || self.opening.again(kept_evictions, target_and_function);
        with_list(opened, self.list, opening)
    }

    /// The L to plan with: so many emergency slots are enough for a function,
    /// whatever patches it gets. The bytes are as for [`ParallelMoves::open`], with
    /// any L. It is 128 + `kept_evictions` for each different slot size among the
    /// banks of the function's values: at most 1,040, and 0 without values. Opened
    /// with it in the place of its L, the function never gets
    /// [`Refusal::OutOfSlots`].
    ///
    /// # Errors
    ///
    /// As [`ParallelMoves::open`].
    ///
    /// ```
    /// use parallel_moves::{JobBuilder, ParallelMoves, Refusal, RegBank, TargetBuilder};
    ///
    /// // Values for s0 to s31 and for d0 to d15, whose slots have two sizes.
    /// let mut job = JobBuilder::on(TargetBuilder::named("vfp").unwrap());
    /// [0, 0, 1].map(|bank| job.function().value(RegBank::new(bank)));
    /// let target_and_function = job.target_and_function().unwrap();
    /// assert_eq!(ParallelMoves::enough_slots(1, &target_and_function), Ok(258));
    /// assert_eq!(ParallelMoves::enough_slots(2, &target_and_function), Ok(260));
    /// assert_eq!(ParallelMoves::enough_slots(3, &[]), Err(Refusal::NoSuchSetting));
    /// ```
    pub fn enough_slots(kept_evictions: u32, target_and_function: &[u8]) -> Result<u16, Refusal> {
        sys::enough_slots(kept_evictions, target_and_function).map_err(Refusal::given)
    }

    /// The edits that carry a patch out.
    ///
    /// # Errors
    ///
    /// The refusals 2, 3, 9 to 15, 17 and 21. Any patch can be given; after a
    /// refused one the function is as before it.
    #[inline]
    pub fn resolve(&mut self, patch: &Patch) -> Result<Edits<'_>, Refusal> {
        resolve(&mut self.tables, patch, &mut self.list[..])
    }

    /// As [`ParallelMoves::resolve`], by groups: entries that share a unit of a source
    /// or a destination belong together, also through others in a chain. Groups go in
    /// the order of their first entry, each as a patch of its entries alone, whose free
    /// units are those that no source of another group has.
    ///
    /// # Errors
    ///
    /// As [`ParallelMoves::resolve`], of the whole patch; [`Refusal::OutOfSlots`] where
    /// a group gets it.
    ///
    /// ```
    /// use parallel_moves::{JobBuilder, ParallelMoves, Patch, PhysReg, Refusal, RegBank, TargetBuilder};
    ///
    /// # fn main() -> Result<(), Refusal> {
    /// let mut job = JobBuilder::on(TargetBuilder::named("vfp").unwrap());
    /// let [v0, v1, v2] = [(); 3].map(|()| job.function().value(RegBank::new(0)));
    /// let mut moves = ParallelMoves::open(1, &job.target_and_function()?)?;
    /// let [s0, s1, s2, s3] = [0, 1, 2, 3].map(PhysReg::new);
    /// let mut patch = Patch::new();
    /// patch.move_(s0, s1, v0).move_(s1, s0, v1).move_(s2, s3, v2).free(&[2]);
    /// // Unit 2 is free, but the second group reads it: the first one spares it.
    /// let edits: Vec<String> = moves.resolve_by_groups(&patch)?.iter().map(|e| e.to_string()).collect();
    /// assert_eq!(edits, ["M s0 r1 1", "M r1 r0 0", "M r0 s0 1", "M r3 r2 2"]);
    /// # Ok(())
    /// # }
    /// ```
    pub fn resolve_by_groups(&mut self, patch: &Patch) -> Result<Edits<'_>, Refusal> {
        let (count, number) =
            self.tables
                .resolve_groups(&patch.free, &patch.entries, &mut self.list[..]);
        match Refusal::of_number(number) {
            None => Ok(Edits::new(&self.list[..count])),
            Some(refusal) => Err(refusal),
        }
    }

    /// As [`ParallelMoves::resolve`], with the edits in a list of the caller's
    /// own. Only as many words as there are edits are written, at its front;
    /// none if the patch is refused. [`MOST_EDITS`] are always enough, 0 for a
    /// patch without entries.
    ///
    /// # Errors
    ///
    /// As [`ParallelMoves::resolve`], and [`Refusal::ListTooShort`].
    #[inline]
    pub fn resolve_into<'a>(
        &mut self,
        patch: &Patch,
        list: &'a mut [u64],
    ) -> Result<Edits<'a>, Refusal> {
        resolve(&mut self.tables, patch, list)
    }

    /// The edits that would carry a patch out, to look at before one settles on
    /// them: the function stays as it is. [`ParallelMoves::take`] settles on them.
    ///
    /// # Errors
    ///
    /// As [`ParallelMoves::resolve`]; then there is nothing to take.
    ///
    /// ```
    /// use parallel_moves::{JobBuilder, ParallelMoves, Patch, PhysReg, Refusal, RegBank, TakeError};
    /// # use parallel_moves::TargetBuilder;
    ///
    /// # fn main() -> Result<(), Refusal> {
    /// # let mut job = JobBuilder::on(TargetBuilder::named("vfp").unwrap());
    /// let [v0, v1] = [(); 2].map(|()| job.function().value(RegBank::new(1)));
    /// let mut moves = ParallelMoves::open(1, &job.target_and_function()?)?;
    /// let [d0, d1] = [32, 33].map(PhysReg::new);
    /// let mut swap = Patch::new();
    /// swap.move_(d0, d1, v0).move_(d1, d0, v1);
    ///
    /// let preview = moves.preview(&swap)?;
    /// assert_eq!(preview.edits().len(), 3);
    /// assert_eq!((preview.made(), moves.made()), (1, 0));
    ///
    /// assert_eq!(moves.take(&preview), Ok(()));
    /// assert_eq!(moves.made(), 1);
    /// // The function has taken one since.
    /// assert_eq!(moves.take(&preview), Err(TakeError::Refused(Refusal::TakenLate)));
    /// # Ok(())
    /// # }
    /// ```
    pub fn preview(&mut self, patch: &Patch) -> Result<Preview, Refusal> {
        let asked = self
            .tables
            .ask(&patch.free, &patch.entries, &mut self.list[..]);
        match asked {
            Ok((count, pending)) => Ok(Preview {
                edits: self.list[..count].into(),
                pending,
            }),
            Err(number) => Err(Refusal::given(number)),
        }
    }

    /// Settles on a preview: the function becomes what resolving the patch would
    /// have made it, unless it has taken a preview or resolved a patch since the
    /// asking.
    ///
    /// # Errors
    ///
    /// [`TakeError::Refused`] with [`Refusal::TakenLate`] if it has;
    /// [`TakeError::Other`] for another function's preview. The function is then
    /// as before.
    pub fn take(&mut self, preview: &Preview) -> Result<(), TakeError> {
        match self.tables.take(&preview.pending).map(Refusal::of_number) {
            Some(None) => Ok(()),
            Some(Some(refusal)) => Err(TakeError::Refused(refusal)),
            None => Err(TakeError::Other),
        }
    }

    /// How many emergency slots the function has so far. They are numbered from
    /// its ordinary slots on; [`ParallelMoves::slot_size`] says how large each is.
    #[must_use]
    pub fn made(&self) -> usize {
        self.tables.made().into()
    }

    /// The size that an emergency slot was made for: it has 2^size bytes, as the bank says
    /// whose values or registers go there. None for a slot that was not made: an ordinary
    /// one, or one that is still to come.
    ///
    /// ```
    /// use parallel_moves::{JobBuilder, ParallelMoves, Patch, PhysReg, RegBank, SpillSlot, TargetBuilder};
    ///
    /// // d0 and d1, of 2^3 bytes each, change their contents, with two ordinary slots.
    /// let mut job = JobBuilder::on(TargetBuilder::named("vfp").unwrap());
    /// let [v0, v1] = [(); 2].map(|()| job.function().value(RegBank::new(1)));
    /// job.function().slots(2);
    /// let mut moves = ParallelMoves::open(1, &job.target_and_function().unwrap()).unwrap();
    /// let [d0, d1] = [32, 33].map(PhysReg::new);
    /// let mut patch = Patch::new();
    /// moves.resolve(patch.move_(d0, d1, v0).move_(d1, d0, v1)).unwrap();
    /// let sizes = [1, 2, 3].map(|slot| moves.slot_size(SpillSlot::new(slot)));
    /// assert_eq!(sizes, [None, Some(3), None]);
    /// ```
    #[must_use]
    pub fn slot_size(&self, slot: SpillSlot) -> Option<u32> {
        self.opening.slot_size(self.tables.cache(), slot)
    }

    /// Whether two places of the target overlap, as
    /// [`TargetBuilder::overlap`](crate::TargetBuilder::overlap) has it.
    #[must_use]
    pub fn overlap(&self, one: impl Into<Allocation>, other: impl Into<Allocation>) -> bool {
        self.opening.job().target.overlap(one, other)
    }

    /// The bytes of the target and the function, as it was opened with them.
    #[must_use]
    pub fn target_and_function(&self) -> &[u8] {
        self.opening.bytes()
    }

    /// The greatest position that a search of the last patch, resolved or taken, for a
    /// scratch register met, 0 without searches or before the first patch. A
    /// refused patch leaves it. [`ResolvedPatch::position`] says what a position
    /// is.
    ///
    /// [`ResolvedPatch::position`]: crate::ResolvedPatch::position
    #[must_use]
    pub fn position(&self) -> usize {
        self.tables.position().into()
    }
}

/// An opened function with a list for its edits; or its refusal.
fn with_list(
    opened: Result<Opened, u8>,
    list: Box<[u64; MOST_EDITS]>,
    opening: impl FnOnce() -> Opening,
) -> Result<ParallelMoves, Refusal> {
    match opened {
        Ok(tables) => Ok(ParallelMoves {
            tables,
            list,
            opening: opening(),
        }),
        Err(number) => Err(Refusal::given(number)),
    }
}

#[inline]
fn resolve<'a>(
    tables: &mut Opened,
    patch: &Patch,
    list: &'a mut [u64],
) -> Result<Edits<'a>, Refusal> {
    let (count, number) = tables.resolve(&patch.free, &patch.entries, list);
    match Refusal::of_number(number) {
        None => Ok(Edits::new(&list[..count])),
        Some(refusal) => Err(refusal),
    }
}

impl fmt::Debug for ParallelMoves {
    fn fmt(&self, f: &mut fmt::Formatter<'_>) -> fmt::Result {
        f.debug_struct("ParallelMoves")
            .field("made", &self.made())
            .finish_non_exhaustive()
    }
}
