//! Patches whose edits are examined before they are handed out.

use std::error::Error;
use std::fmt;

use crate::answer::Answer;
use crate::edit::Edits;
use crate::examine::examine_all;
use crate::parallel_moves::{MOST_EDITS, ParallelMoves};
use crate::patch::Patch;
use crate::refusal::Refusal;
use crate::sys::{ExamineTables, Pending, Spare};

/// [`ParallelMoves`] with belt and braces: each patch is asked for, its edits are examined as
/// [`ParallelMoves::examine`] has it, and only what gets a yes is taken and handed out.
///
/// It is proved that every list of ours gets a yes. So a patch is [`Unconfirmed`] only where
/// what runs is not what was proved: a compiler or a linker went wrong, or memory is broken.
/// Then the function, and the list of the caller, are as before that patch.
///
/// [`ParallelMoves::checked`] makes it. It has 0.4 megabytes more, with patches by groups half a
/// megabyte, and keeps them from patch to patch.
///
/// ```
/// use parallel_moves::{CheckError, ParallelMoves, Patch, PhysReg, Refusal, Value};
///
/// # fn main() -> Result<(), CheckError> {
/// // The opening of swap-full: all but its patch count and its patch of 10 bytes.
/// let job = std::fs::read("../examples/swap-full.job").unwrap();
/// let mut moves = ParallelMoves::open(1, &job[..job.len() - 11])?.checked(true);
/// let [r0, r1] = [0, 1].map(PhysReg::new);
/// let mut patch = Patch::new();
/// patch.move_(r0, r1, Value::new(0)).move_(r1, r0, Value::new(1));
/// assert_eq!(moves.resolve(&patch)?.len(), 3);
/// assert_eq!(moves.made(), 1);
///
/// // A refusal is one here, too.
/// patch.move_(r0, r0, Value::new(0));
/// let refused = moves.resolve(&patch).map(|edits| edits.len());
/// assert_eq!(refused, Err(CheckError::Refused(Refusal::SelfMove)));
/// # Ok(())
/// # }
/// ```
pub struct CheckedMoves {
    moves: ParallelMoves,
    /// None where nothing is examined.
    checking: Option<Checking>,
    /// How many patches it was given.
    given: usize,
}

/// What examining needs beside the function.
struct Checking {
    tables: ExamineTables,
    /// The answer that was asked for last, whose memory the next one takes.
    pending: Option<Pending>,
    /// Made at the first patch by groups.
    spare: Option<Spare>,
}

impl ParallelMoves {
    /// From now on each patch's edits are examined before they are handed out, if `check` is
    /// true; else it resolves as before, in the same words.
    #[must_use]
    pub fn checked(self, check: bool) -> CheckedMoves {
        let checking = check.then(|| Checking {
            tables: ExamineTables::new(),
            pending: None,
            spare: None,
        });
        CheckedMoves {
            moves: self,
            checking,
            given: 0,
        }
    }
}

impl CheckedMoves {
    /// The edits that carry a patch out, as [`ParallelMoves::resolve`] has them.
    ///
    /// # Errors
    ///
    /// [`CheckError::Refused`] as [`ParallelMoves::resolve`]; [`CheckError::Unconfirmed`] if
    /// the edits do not get a yes. The function is then as before.
    pub fn resolve(&mut self, patch: &Patch) -> Result<Edits<'_>, CheckError> {
        let count = self.resolved(patch, MOST_EDITS)?;
        Ok(Edits::new(&self.moves.list[..count]))
    }

    /// As [`CheckedMoves::resolve`], with the edits in a list of the caller's own, as
    /// [`ParallelMoves::resolve_into`] has it.
    ///
    /// # Errors
    ///
    /// As [`CheckedMoves::resolve`], and [`Refusal::ListTooShort`]. The list is then as before.
    pub fn resolve_into<'a>(
        &mut self,
        patch: &Patch,
        list: &'a mut [u64],
    ) -> Result<Edits<'a>, CheckError> {
        let count = self.resolved(patch, list.len().min(MOST_EDITS))?;
        list[..count].copy_from_slice(&self.moves.list[..count]);
        Ok(Edits::new(&list[..count]))
    }

    /// As [`CheckedMoves::resolve`], by groups, as [`ParallelMoves::resolve_by_groups`] has
    /// them: on a copy of what the function remembers, which is kept if the edits get a yes.
    ///
    /// # Errors
    ///
    /// As [`CheckedMoves::resolve`]; [`Refusal::OutOfSlots`] where a group gets it.
    pub fn resolve_by_groups(&mut self, patch: &Patch) -> Result<Edits<'_>, CheckError> {
        self.given += 1;
        let number = self.given;
        let ParallelMoves { tables, list, .. } = &mut self.moves;
        let Patch { free, entries } = patch;
        let (count, refusal) = match &mut self.checking {
            None => tables.resolve_groups(free, entries, &mut list[..]),
            Some(checking) => {
                let by = &mut checking.tables;
                let spare = checking.spare.get_or_insert_with(Spare::new);
                tables.resolve_groups_if(spare, free, entries, &mut list[..], |opened, words| {
                    examined(number, words, |words| {
                        opened.examine(by, free, entries, words)
                    })
                })?
            }
        };
        accepted(refusal)?;
        Ok(Edits::new(&self.moves.list[..count]))
    }

    /// How many edits a patch has, which stand in the list, of which so much is lent.
    fn resolved(&mut self, patch: &Patch, room: usize) -> Result<usize, CheckError> {
        self.given += 1;
        let Patch { free, entries } = patch;
        let tables = &mut self.moves.tables;
        let list = &mut self.moves.list[..room];
        let Some(checking) = &mut self.checking else {
            let (count, refusal) = tables.resolve(free, entries, list);
            return accepted(refusal).map(|()| count);
        };
        let asked = tables.ask_again(&mut checking.pending, free, entries, list);
        let count = asked.map_err(Refusal::given)?;
        let by = &mut checking.tables;
        examined(self.given, list.get(..count), |words| {
            tables.examine(by, free, entries, words)
        })?;
        let taken = checking.pending.as_ref().and_then(|p| tables.take(p));
        // It was asked for just now: only what is broken refuses it.
        let taken = taken.map_or(Ok(false), number_or_yes);
        confirmed(self.given, &list[..count], taken)?;
        Ok(count)
    }

    /// How many patches it was given, refused ones among them. The last one has this number
    /// in an [`Unconfirmed`].
    #[must_use]
    pub fn given(&self) -> usize {
        self.given
    }

    /// As [`ParallelMoves::made`].
    #[must_use]
    pub fn made(&self) -> usize {
        self.moves.made()
    }

    /// As [`ParallelMoves::position`].
    #[must_use]
    pub fn position(&self) -> usize {
        self.moves.position()
    }

    /// Opens another function in the same memory, whose patches are checked as this one's are.
    ///
    /// # Errors
    ///
    /// As [`ParallelMoves::reopen`].
    pub fn reopen(self, kept_evictions: u32, target_and_function: &[u8]) -> Result<Self, Refusal> {
        Ok(CheckedMoves {
            moves: self.moves.reopen(kept_evictions, target_and_function)?,
            checking: self.checking,
            given: 0,
        })
    }

    /// The function, whose patches are then not examined any more.
    #[must_use]
    pub fn into_inner(self) -> ParallelMoves {
        self.moves
    }
}

impl fmt::Debug for CheckedMoves {
    fn fmt(&self, f: &mut fmt::Formatter<'_>) -> fmt::Result {
        f.debug_struct("CheckedMoves")
            .field("check", &self.checking.is_some())
            .field("given", &self.given)
            .field("made", &self.made())
            .finish_non_exhaustive()
    }
}

/// A refusal's number, or yes.
fn number_or_yes(refusal: u8) -> Result<bool, u8> {
    match refusal {
        0 => Ok(true),
        number => Err(number),
    }
}

/// Unless the patch is refused.
fn accepted(refusal: u8) -> Result<(), CheckError> {
    match Refusal::of_number(refusal) {
        None => Ok(()),
        Some(refusal) => Err(refusal.into()),
    }
}

/// Whether the words of a patch get a yes; there are none where more are counted than there is
/// room for.
fn examined(
    patch: usize,
    words: Option<&[u64]>,
    examine: impl FnOnce(&[u64]) -> Result<bool, u8>,
) -> Result<(), Unconfirmed> {
    let said = words.map_or(Ok(false), examine);
    confirmed(patch, words.unwrap_or_default(), said)
}

/// Whether these words of a patch got a yes.
fn confirmed(patch: usize, words: &[u64], said: Result<bool, u8>) -> Result<(), Unconfirmed> {
    let refusal = match said {
        Ok(true) => return Ok(()),
        Ok(false) => None,
        Err(number) => Refusal::of_number(number),
    };
    Err(Unconfirmed {
        patch,
        words: words.into(),
        refusal,
    })
}

impl Answer {
    /// Examines the edits of all patches of this answer, which is that of a job, before one
    /// relies on it.
    ///
    /// # Errors
    ///
    /// The first patch whose edits do not get a yes, as [`examine_all`] has it.
    ///
    /// ```
    /// use parallel_moves::Resolver;
    ///
    /// let job = std::fs::read("../examples/swap-full.job").unwrap();
    /// let answer = Resolver::new().answer(1, &job).unwrap();
    /// assert_eq!(answer.confirm(&job), Ok(()));
    /// // It is not the answer of another job.
    /// let other = std::fs::read("../examples/pictures/slot-handed-on.job").unwrap();
    /// assert_eq!(answer.confirm(&other).unwrap_err().patch(), 1);
    /// ```
    pub fn confirm(&self, job: &[u8]) -> Result<(), Unconfirmed> {
        let lists: Vec<&[u64]> = self.patches().map(|patch| patch.edits().words()).collect();
        let all = examine_all(job, lists.iter().copied());
        for ((said, words), patch) in all.into_iter().zip(lists).zip(1..) {
            confirmed(patch, words, said.map_err(Refusal::number))?;
        }
        Ok(())
    }
}

/// A patch whose edits the examination does not confirm: the library that runs is not the one
/// that was proved, or its memory is broken. Nothing of the patch was taken.
#[derive(Clone, Debug, PartialEq, Eq, Hash)]
#[must_use = "the patch has no edits"]
pub struct Unconfirmed {
    patch: usize,
    words: Box<[u64]>,
    refusal: Option<Refusal>,
}

impl Unconfirmed {
    /// The patch's number, from 1: in its job, or among those that the function was given,
    /// refused ones among them.
    #[must_use]
    pub fn patch(&self) -> usize {
        self.patch
    }

    /// What was made for it. These are words and no edits: one may be none.
    #[must_use]
    pub fn words(&self) -> &[u64] {
        &self.words
    }

    /// Why the examination refused it, such as [`Refusal::NoSuchEdit`]; none if it said no.
    pub fn refusal(&self) -> Option<Refusal> {
        self.refusal
    }
}

impl fmt::Display for Unconfirmed {
    fn fmt(&self, f: &mut fmt::Formatter<'_>) -> fmt::Result {
        let patch = self.patch;
        write!(
            f,
            "patch {patch}: the edits that were made are not confirmed, "
        )?;
        match self.refusal {
            None => f.write_str("they do not do what it asks")?,
            Some(refusal) => refusal.fmt(f)?,
        }
        f.write_str("; the library or the memory is broken")
    }
}

impl Error for Unconfirmed {}

/// Why a patch that is checked has no edits. Nothing has changed.
#[derive(Clone, Debug, PartialEq, Eq, Hash)]
#[must_use = "the patch has no edits"]
#[non_exhaustive]
pub enum CheckError {
    /// The patch, or the opening of its function, is refused.
    Refused(Refusal),
    /// Its edits are not confirmed.
    Unconfirmed(Unconfirmed),
}

impl From<Refusal> for CheckError {
    fn from(refusal: Refusal) -> Self {
        CheckError::Refused(refusal)
    }
}

impl From<Unconfirmed> for CheckError {
    fn from(unconfirmed: Unconfirmed) -> Self {
        CheckError::Unconfirmed(unconfirmed)
    }
}

impl fmt::Display for CheckError {
    fn fmt(&self, f: &mut fmt::Formatter<'_>) -> fmt::Result {
        match self {
            CheckError::Refused(refusal) => refusal.fmt(f),
            CheckError::Unconfirmed(unconfirmed) => unconfirmed.fmt(f),
        }
    }
}

impl Error for CheckError {
    fn source(&self) -> Option<&(dyn Error + 'static)> {
        match self {
            CheckError::Refused(refusal) => Some(refusal),
            CheckError::Unconfirmed(unconfirmed) => Some(unconfirmed),
        }
    }
}
