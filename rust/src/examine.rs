//! Lists of edits from elsewhere, examined.

mod fault;

pub use fault::{Cannot, Fault, first_fault};

use crate::builder::Part;
use crate::parallel_moves::ParallelMoves;
use crate::patch::Patch;
use crate::reading::Reading;
use crate::refusal::Refusal;
use crate::sys::{ExamineTables, Examiner};

/// Whether a list of edits does what a patch of a job asks: whether, from every start in
/// which each kept source holds its value and whatever the values' contents are, every edit
/// can be done, and in the end all destinations are right and all else outside free units
/// and the slots from N on is as it began. `patch` counts the job's patches from 0. The
/// edits are given as words, as [`Edits::words`](crate::Edits::words) has them and
/// [`Edit::word`](crate::Edit::word) makes them; there may be any number of them.
///
/// Patches before it are read and tested, but not resolved; those behind it are not read.
///
/// # Errors
///
/// The refusal of the job up to that patch, but for [`Refusal::ListTooShort`] and
/// [`Refusal::OutOfSlots`], which belong to resolving; [`Refusal::NamesNothing`] for a patch
/// that the job has not; then [`Refusal::NoSuchEdit`] if a word of the list is no edit, or names a
/// register, a value or a slot that there is not. Slots below N + L may be named.
///
/// ```
/// use parallel_moves::{Edit, PhysReg, Refusal, SpillSlot, Value, examine};
///
/// let job = std::fs::read("../examples/swap-full.job").unwrap();
/// let (r0, r1, s0) = (PhysReg::new(0), PhysReg::new(1), SpillSlot::new(0));
/// let first = Edit::Move { to: r1.into(), from: r0.into(), value: Value::new(0) };
/// let save = Edit::EmergencySpill { to: s0, from: r1 };
/// let load = Edit::EmergencyReload { to: r0, from: s0 };
/// let list = [save, first, load].map(|edit| edit.word());
/// assert_eq!(examine(&job, 0, &list), Ok(true));
/// assert_eq!(examine(&job, 0, &list[1..]), Ok(false));
/// assert_eq!(examine(&job, 0, &[0]), Err(Refusal::NoSuchEdit));
/// assert_eq!(examine(&job, 1, &list), Err(Refusal::NamesNothing));
/// ```
pub fn examine(job: &[u8], patch: u32, words: &[u64]) -> Result<bool, Refusal> {
    let answer = Examiner::new().examine(None, job, patch, words);
    answer.map_err(Refusal::given)
}

/// The same for a formula of a shared frame: slots below N plus the frame's limit may be
/// named.
///
/// # Errors
///
/// [`Refusal::NamesNothing`], before all else, for a limit above 2,048; then as [`examine`].
pub fn examine_in(limit: u32, job: &[u8], patch: u32, words: &[u64]) -> Result<bool, Refusal> {
    let answer = Examiner::new().examine(Some(limit), job, patch, words);
    answer.map_err(Refusal::given)
}

/// Whether lists of edits do what the patches of a job ask, the first list for the first patch
/// and so on: of each what [`examine`] says. The job is read and its function opened once, so
/// that this is for all patches of a job.
///
/// ```
/// use parallel_moves::{Refusal, Resolver, examine_all};
///
/// let job = std::fs::read("../examples/swap-full.job").unwrap();
/// let answer = Resolver::new().answer(1, &job).unwrap();
/// let lists: Vec<&[u64]> = answer.patches().map(|patch| patch.edits().words()).collect();
/// assert_eq!(examine_all(&job, lists), [Ok(true)]);
/// let two: [&[u64]; 2] = [&[], &[]];
/// assert_eq!(examine_all(&job, two), [Ok(false), Err(Refusal::NamesNothing)]);
/// ```
pub fn examine_all<'a>(
    job: &[u8],
    lists: impl IntoIterator<Item = &'a [u64]>,
) -> Vec<Result<bool, Refusal>> {
    let opened = Opened::of(job);
    let mut examiner = Examiner::new();
    let mut by = ExamineTables::new();
    // Of a patch that is refused, and of those behind it, the job itself is asked.
    let mut in_order = opened.is_some();
    let one = |(number, words): (u32, &[u64])| {
        let said = opened.as_ref().filter(|_| in_order).and_then(|opened| {
            let patch = opened.patches.get(number as usize)?;
            opened.examine(&mut by, patch, words)
        });
        in_order = said.is_some();
        said.unwrap_or_else(|| {
            let answer = examiner.examine(None, job, number, words);
            answer.map_err(Refusal::given)
        })
    };
    (0..).zip(lists).map(one).collect()
}

/// A job with more patches is refused.
const MOST_PATCHES: usize = 1024;

/// The function of a job, opened, and the job's patches.
struct Opened {
    moves: ParallelMoves,
    patches: Vec<Patch>,
}

impl Opened {
    /// Of a job whose numbers can all be told, and whose function is accepted. The number of
    /// kept evictions is nothing to an examination.
    fn of(job: &[u8]) -> Option<Self> {
        let Reading {
            job: parts,
            numbers,
            end,
        } = Reading::of(job);
        end.ok().filter(|()| parts.patches.len() <= MOST_PATCHES)?;
        let is_count = |(part, _): &&(Part, _)| *part == Part::Patches;
        let (_, count) = numbers.iter().find(is_count)?;
        Some(Opened {
            moves: ParallelMoves::open(1, &job[..count.start]).ok()?,
            patches: parts.patches,
        })
    }

    /// What is said of a list, unless the patch is refused.
    fn examine(
        &self,
        by: &mut ExamineTables,
        patch: &Patch,
        words: &[u64],
    ) -> Option<Result<bool, Refusal>> {
        match self.moves.examine_by(by, patch, words) {
            Err(Refusal::NoSuchEdit) => Some(Err(Refusal::NoSuchEdit)),
            Err(_) => None,
            said => Some(said),
        }
    }
}

impl ParallelMoves {
    /// Whether a list of edits does what a patch of this function asks, as [`examine`] has it
    /// of a patch of a job. Slots below N + L may be named. The function stays as it is.
    ///
    /// # Errors
    ///
    /// As [`ParallelMoves::resolve`], but for [`Refusal::OutOfSlots`]; then
    /// [`Refusal::NoSuchEdit`] if a word of the list is no edit, or names a register, a value
    /// or a slot that there is not.
    ///
    /// ```
    /// use parallel_moves::{ParallelMoves, Patch, PhysReg, Refusal, Value};
    ///
    /// # fn main() -> Result<(), Refusal> {
    /// // The opening of swap-full: all but its patch count and its patch of 10 bytes.
    /// let job = std::fs::read("../examples/swap-full.job").unwrap();
    /// let mut moves = ParallelMoves::open(1, &job[..job.len() - 11])?;
    /// let [r0, r1] = [0, 1].map(PhysReg::new);
    /// let mut swap = Patch::new();
    /// swap.move_(r0, r1, Value::new(0)).move_(r1, r0, Value::new(1));
    ///
    /// let preview = moves.preview(&swap)?;
    /// let words = preview.edits().words();
    /// assert_eq!(moves.examine(&swap, words), Ok(true));
    /// assert_eq!(moves.examine(&swap, &words[1..]), Ok(false));
    /// assert_eq!(moves.examine(&swap, &[0]), Err(Refusal::NoSuchEdit));
    /// # Ok(())
    /// # }
    /// ```
    pub fn examine(&self, patch: &Patch, words: &[u64]) -> Result<bool, Refusal> {
        self.examine_by(&mut ExamineTables::new(), patch, words)
    }

    /// The same with these tables.
    fn examine_by(
        &self,
        by: &mut ExamineTables,
        patch: &Patch,
        words: &[u64],
    ) -> Result<bool, Refusal> {
        let answer = self.tables.examine(by, &patch.free, &patch.entries, words);
        answer.map_err(Refusal::given)
    }
}
