//! The answer to a patch that is asked for, to be taken or not.

use std::error::Error;
use std::fmt;

use crate::edit::Edits;
use crate::refusal::Refusal;
use crate::sys::Pending;

/// What a patch would be answered: its edits, before one settles on them.
///
/// [`ParallelMoves::preview`] makes it and leaves the function as it is;
/// [`ParallelMoves::take`] then does what resolving the patch would have done. It
/// owns its memory, about 64 KiB beside the edits.
///
/// [`ParallelMoves::preview`]: crate::ParallelMoves::preview
/// [`ParallelMoves::take`]: crate::ParallelMoves::take
pub struct Preview {
    pub(crate) edits: Box<[u64]>,
    pub(crate) pending: Pending,
}

impl Preview {
    /// The edits that carry the patch out.
    pub fn edits(&self) -> Edits<'_> {
        Edits::new(&self.edits)
    }

    /// How many emergency slots the function has once this is taken.
    #[must_use]
    pub fn made(&self) -> usize {
        self.pending.made().into()
    }

    /// The greatest position that a search of the patch for a scratch register
    /// met, as [`ParallelMoves::position`] has it of a resolved one.
    ///
    /// [`ParallelMoves::position`]: crate::ParallelMoves::position
    #[must_use]
    pub fn position(&self) -> usize {
        self.pending.position().into()
    }
}

impl fmt::Debug for Preview {
    fn fmt(&self, f: &mut fmt::Formatter<'_>) -> fmt::Result {
        f.debug_struct("Preview")
            .field("edits", &self.edits())
            .field("made", &self.made())
            .finish_non_exhaustive()
    }
}

/// Why a preview is not taken. Nothing has changed.
#[derive(Clone, Copy, Debug, PartialEq, Eq, Hash)]
#[must_use = "what is not taken changes nothing"]
#[non_exhaustive]
pub enum TakeError {
    /// [`Refusal::TakenLate`], 20: since the asking, the function has taken a
    /// preview or resolved a patch. Ask again.
    Refused(Refusal),
    /// It is a preview of another function, or of one that was opened before.
    Other,
}

impl fmt::Display for TakeError {
    fn fmt(&self, f: &mut fmt::Formatter<'_>) -> fmt::Result {
        match self {
            TakeError::Refused(refusal) => refusal.fmt(f),
            TakeError::Other => f.write_str("the preview is another function's"),
        }
    }
}

impl Error for TakeError {
    fn source(&self) -> Option<&(dyn Error + 'static)> {
        match self {
            TakeError::Refused(refusal) => Some(refusal),
            TakeError::Other => None,
        }
    }
}
