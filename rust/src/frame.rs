//! Functions that share a frame.

use std::fmt;

use crate::edit::Edits;
use crate::examine::examine_in;
use crate::parallel_moves::MOST_EDITS;
use crate::patch::Patch;
use crate::preview::TakeError;
use crate::refusal::Refusal;
use crate::sys::{ExamineTables, OpenedFrame, PendingInFrame};

/// A formula that shares a frame: its function, and how many slots it is promised.
#[derive(Clone, Copy, Debug)]
pub struct Formula<'a> {
    /// 1 or 2, as for [`ParallelMoves::open`](crate::ParallelMoves::open).
    pub kept_evictions: u32,
    /// As for [`ParallelMoves::open`](crate::ParallelMoves::open). Its L is read but not used.
    pub target_and_function: &'a [u8],
    /// How many emergency slots it is promised, whatever the others call.
    pub share: u32,
}

/// One to sixteen functions, formulas, that are inlined into one frame: emergency slots are
/// numbered from one counter, up to a common limit, and each formula is promised its share of
/// them. A formula may make a slot while it is below its share, or while all slots made, with
/// what the others still lack of their shares, are below the limit.
///
/// It owns its memory, about half a megabyte for each formula. A formula's number is its place
/// among those that the frame was opened with, from 0.
///
/// ```
/// use parallel_moves::{Allocation, Formula, Frame, Patch, PhysReg, Refusal, Value};
///
/// # fn main() -> Result<(), Refusal> {
/// // Three registers, two values and no slots.
/// let target_and_function = [
///     3, 1, 3, 0, 1, 3, 0, 0, 1, 0, 0, 0, 1, 1, 0, 0, 1, 2, 2, // units, bank, registers
///     0, 1, 3, 0, 1, 2, 3, 0, 1, 2, 0, 0, 3, 0, 1, 2, 3, 0, 1, 2, // classes
///     2, 0, 0, 0, 0, 0, 0, // values and slots
/// ];
/// let formula = |share| Formula {
///     kept_evictions: 1,
///     target_and_function: &target_and_function,
///     share,
/// };
/// // The one slot is promised to the first.
/// let mut frame = Frame::open(1, &[formula(1), formula(0)])?;
///
/// let [r0, r1] = [0, 1].map(|index| Allocation::reg(PhysReg::new(index)));
/// let mut swap = Patch::new();
/// swap.add_move(r0, r1, Value::new(0));
/// swap.add_move(r1, r0, Value::new(1));
/// assert_eq!(frame.resolve(1, &swap), Err(Refusal::OutOfSlots));
/// assert_eq!(frame.resolve(0, &swap)?.len(), 3);
/// assert_eq!((frame.made(0), frame.made(1)), (1, 0));
/// # Ok(())
/// # }
/// ```
pub struct Frame {
    opened: OpenedFrame,
    limit: u32,
    /// Where edits are made, before they are handed out.
    list: Box<[u64; MOST_EDITS]>,
}

impl Frame {
    /// Opens a frame with a limit of at most 2,048 slots and its formulas, all with the first
    /// one's ordinary slots.
    ///
    /// # Errors
    ///
    /// [`Refusal::NamesNothing`] for no formula or more than sixteen, or a higher limit; then
    /// [`Refusal::SharesAboveLimit`]; then what the first formula is refused by that is, as
    /// [`ParallelMoves::open`](crate::ParallelMoves::open) has it, and
    /// [`Refusal::NamesNothing`], when it is read, for another number of ordinary slots than the
    /// first one's.
    pub fn open(limit: u32, formulas: &[Formula<'_>]) -> Result<Self, Refusal> {
        let shares: Vec<u32> = formulas.iter().map(|formula| formula.share).collect();
        let mut opened = OpenedFrame::open(limit, &shares).map_err(Refusal::given)?;
        for formula in formulas {
            opened
                .open_formula(formula.kept_evictions, formula.target_and_function)
                .map_err(Refusal::given)?;
        }
        Ok(Frame {
            opened,
            limit,
            list: Box::new([0; MOST_EDITS]),
        })
    }

    /// How many formulas it has.
    #[must_use]
    #[allow(clippy::len_without_is_empty)]
    pub fn len(&self) -> usize {
        self.opened.len()
    }

    /// The edits that carry a patch of a formula out.
    ///
    /// # Errors
    ///
    /// As [`ParallelMoves::resolve`](crate::ParallelMoves::resolve);
    /// [`Refusal::OutOfSlots`] where a slot is needed that the formula may not make. A refused
    /// patch changes nothing.
    ///
    /// # Panics
    ///
    /// If there is no such formula.
    pub fn resolve(&mut self, formula: usize, patch: &Patch) -> Result<Edits<'_>, Refusal> {
        let list = &mut self.list[..];
        let (count, number) = self
            .opened
            .resolve(formula, &patch.free, &patch.entries, list);
        match Refusal::of_number(number) {
            None => Ok(Edits::new(&self.list[..count])),
            Some(refusal) => Err(refusal),
        }
    }

    /// The edits that carry a patch of a formula out by groups, as
    /// [`ParallelMoves::resolve_by_groups`](crate::ParallelMoves::resolve_by_groups) has them. All
    /// groups have the formula's one share.
    ///
    /// # Errors
    ///
    /// As [`Frame::resolve`]; a group that is out of slots refuses all, and nothing changes.
    ///
    /// # Panics
    ///
    /// If there is no such formula.
    pub fn resolve_by_groups(
        &mut self,
        formula: usize,
        patch: &Patch,
    ) -> Result<Edits<'_>, Refusal> {
        let list = &mut self.list[..];
        let (count, number) =
            self.opened
                .resolve_groups(formula, &patch.free, &patch.entries, list);
        match Refusal::of_number(number) {
            None => Ok(Edits::new(&self.list[..count])),
            Some(refusal) => Err(refusal),
        }
    }

    /// The edits that would carry a patch of a formula out, to look at before one settles on them
    /// by [`Frame::take`]. Nothing changes.
    ///
    /// # Errors
    ///
    /// As [`Frame::resolve`]; then there is nothing to take.
    ///
    /// # Panics
    ///
    /// If there is no such formula.
    pub fn preview(&mut self, formula: usize, patch: &Patch) -> Result<FramePreview, Refusal> {
        let list = &mut self.list[..];
        let asked = self.opened.ask(formula, &patch.free, &patch.entries, list);
        match asked {
            Ok((count, pending)) => Ok(FramePreview {
                edits: self.list[..count].into(),
                pending,
            }),
            Err(number) => Err(Refusal::given(number)),
        }
    }

    /// Settles on a preview, unless since the asking its formula has taken one or resolved a
    /// patch, or another formula made a slot.
    ///
    /// # Errors
    ///
    /// [`TakeError::Refused`] with [`Refusal::TakenLate`] if so; [`TakeError::Other`] for another
    /// frame's preview. Nothing changes then.
    pub fn take(&mut self, preview: &FramePreview) -> Result<(), TakeError> {
        match self.opened.take(&preview.pending).map(Refusal::of_number) {
            Some(None) => Ok(()),
            Some(Some(refusal)) => Err(TakeError::Refused(refusal)),
            None => Err(TakeError::Other),
        }
    }

    /// Whether a list of edits does what a patch of a job asks, where the job has the target
    /// and the function of a formula: [`examine`](crate::examine) with slots below N plus this
    /// frame's limit, whatever the job's L is. `patch` counts the job's patches from 0.
    ///
    /// # Errors
    ///
    /// As [`examine`](crate::examine).
    ///
    /// ```
    /// use parallel_moves::{Edit, Formula, Frame, PhysReg, Refusal, SpillSlot, Value, examine};
    ///
    /// # fn main() -> Result<(), Refusal> {
    /// // The opening of swap-full: all but its patch count and its patch of 10 bytes.
    /// let job = std::fs::read("../examples/swap-full.job").unwrap();
    /// let target_and_function = &job[..job.len() - 11];
    /// let formula = Formula { kept_evictions: 1, target_and_function, share: 0 };
    /// let frame = Frame::open(3, &[formula])?;
    ///
    /// let (r0, r1, s2) = (PhysReg::new(0), PhysReg::new(1), SpillSlot::new(2));
    /// let save = Edit::EmergencySpill { to: s2, from: r1 };
    /// let first = Edit::Move { to: r1.into(), from: r0.into(), value: Value::new(0) };
    /// let load = Edit::EmergencyReload { to: r0, from: s2 };
    /// let words = [save, first, load].map(|edit| edit.word());
    /// assert_eq!(frame.examine(&job, 0, &words), Ok(true));
    /// assert_eq!(frame.examine(&job, 0, &words[1..]), Ok(false));
    /// assert_eq!(examine(&job, 0, &words), Err(Refusal::NoSuchEdit));
    /// # Ok(())
    /// # }
    /// ```
    pub fn examine(&self, job: &[u8], patch: u32, words: &[u64]) -> Result<bool, Refusal> {
        examine_in(self.limit, job, patch, words)
    }

    /// Whether a list of edits does what a patch of an opened formula asks, as
    /// [`ParallelMoves::examine`](crate::ParallelMoves::examine) has it: slots below N plus
    /// this frame's limit may be named. Nothing changes.
    ///
    /// # Errors
    ///
    /// As [`ParallelMoves::examine`](crate::ParallelMoves::examine).
    ///
    /// # Panics
    ///
    /// If there is no such formula.
    ///
    /// ```
    /// use parallel_moves::{Formula, Frame, Patch, PhysReg, Refusal, Value};
    ///
    /// # fn main() -> Result<(), Refusal> {
    /// let job = std::fs::read("../examples/swap-full.job").unwrap();
    /// let target_and_function = &job[..job.len() - 11];
    /// let formula = Formula { kept_evictions: 1, target_and_function, share: 0 };
    /// let mut frame = Frame::open(2, &[formula, formula])?;
    /// let [r0, r1] = [0, 1].map(PhysReg::new);
    /// let mut swap = Patch::new();
    /// swap.move_(r0, r1, Value::new(0)).move_(r1, r0, Value::new(1));
    ///
    /// let preview = frame.preview(1, &swap)?;
    /// let words = preview.edits().words().to_vec();
    /// assert_eq!(frame.examine_patch(1, &swap, &words), Ok(true));
    /// assert_eq!(frame.examine_patch(1, &swap, &words[1..]), Ok(false));
    /// # Ok(())
    /// # }
    /// ```
    pub fn examine_patch(
        &self,
        formula: usize,
        patch: &Patch,
        words: &[u64],
    ) -> Result<bool, Refusal> {
        let by = &mut ExamineTables::new();
        let of = (self.limit, formula);
        let answer = self
            .opened
            .examine(of, by, &patch.free, &patch.entries, words);
        answer.map_err(Refusal::given)
    }

    /// How many ordinary slots each formula has, N: the emergency slots of all are numbered
    /// from there.
    ///
    /// ```
    /// use parallel_moves::{Formula, Frame, Refusal};
    ///
    /// # fn main() -> Result<(), Refusal> {
    /// let job = std::fs::read("../examples/swap-full.job").unwrap();
    /// let target_and_function = &job[..job.len() - 11];
    /// let formula = Formula { kept_evictions: 1, target_and_function, share: 1 };
    /// let frame = Frame::open(3, &[formula, formula])?;
    /// assert_eq!((frame.ordinary_slots(), frame.total(), frame.limit()), (0, 0, 3));
    /// # Ok(())
    /// # }
    /// ```
    #[must_use]
    pub fn ordinary_slots(&self) -> usize {
        self.opened.ordinary_slots().into()
    }

    /// How many emergency slots all formulas together have made so far. With the ordinary ones
    /// they are all slots that the frame has.
    #[must_use]
    pub fn total(&self) -> usize {
        (0..self.len()).map(|formula| self.made(formula)).sum()
    }

    /// How many emergency slots all formulas together may make: the limit that the frame was
    /// opened with.
    #[must_use]
    pub fn limit(&self) -> usize {
        self.limit as usize
    }

    /// How many emergency slots a formula has made so far. Those of all are numbered from one
    /// counter, from the ordinary slots on.
    ///
    /// # Panics
    ///
    /// If there is no such formula.
    #[must_use]
    pub fn made(&self, formula: usize) -> usize {
        self.opened.made(formula).into()
    }

    /// The greatest position that a search of a formula's last patch, resolved or taken, met, as
    /// [`ParallelMoves::position`](crate::ParallelMoves::position) has it.
    ///
    /// # Panics
    ///
    /// If there is no such formula.
    #[must_use]
    pub fn position(&self, formula: usize) -> usize {
        self.opened.position(formula).into()
    }
}

impl fmt::Debug for Frame {
    fn fmt(&self, f: &mut fmt::Formatter<'_>) -> fmt::Result {
        let made: Vec<usize> = (0..self.len()).map(|formula| self.made(formula)).collect();
        f.debug_struct("Frame")
            .field("made", &made)
            .finish_non_exhaustive()
    }
}

/// What a patch of a formula would be answered: its edits, before one settles on them.
///
/// [`Frame::preview`] makes it, and [`Frame::take`] settles on it.
pub struct FramePreview {
    edits: Box<[u64]>,
    pending: PendingInFrame,
}

impl FramePreview {
    /// The edits that carry the patch out.
    pub fn edits(&self) -> Edits<'_> {
        Edits::new(&self.edits)
    }

    /// How many emergency slots the formula itself has made once this is taken.
    #[must_use]
    pub fn made(&self) -> usize {
        self.pending.made().into()
    }

    /// The greatest position that a search of the patch met.
    #[must_use]
    pub fn position(&self) -> usize {
        self.pending.position().into()
    }
}

impl fmt::Debug for FramePreview {
    fn fmt(&self, f: &mut fmt::Formatter<'_>) -> fmt::Result {
        f.debug_struct("FramePreview")
            .field("edits", &self.edits())
            .field("made", &self.made())
            .finish_non_exhaustive()
    }
}
