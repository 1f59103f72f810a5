//! Jobs as readable text, and back.
//!
//! One line for each bank, register, class, value, patch and entry. The job `swap-full`:
//!
//! ```text
//! units 3
//! bank b0 slots 2^3 top-level c0 stack c1
//! register r0 bank b0 units 0
//! register r1 bank b0 units 1
//! register r2 bank b0 units 2
//! class c0 bank b0 with-slots members r0 r1 r2 order r0 r1 r2
//! class c1 bank b0 members r0 r1 r2 order r0 r1 r2
//! slots 0
//! emergency-slots 1
//! value v0 bank b0
//! value v1 bank b0
//! patch 1
//!   move v0 from r0 to r1
//!   move v1 from r1 to r0
//! ```
//!
//! The other words are `memory` behind a register's bank, `rebuilt cheaper-than-move by
//! c1` or `rebuilt cheaper-than-load by c1` behind a value's, `free 2 3` behind a patch's
//! number, with the units that are free, and the entry `rebuild v0 in r1`.
//!
//! `target shipped` stands for all lines of a target that has this name
//! ([`TargetBuilder::named`](crate::TargetBuilder::named)), and is printed for them; so does
//! `target vfp`, its other name.
//!
//! Names count up from 0, patches from 1. What follows a `#` is left out of account, and so
//! are empty lines and how many spaces there are.

mod lines;
pub(crate) mod printing;

use std::error::Error;
use std::fmt;

use crate::builder::{BuildError, JobBuilder, RematCost};
pub use crate::reading::NoText;

/// The text of a job's bytes.
///
/// A job that is refused has a text too, unless its numbers cannot be told apart.
///
/// # Errors
///
/// Where the bytes are no numbers (1) or go on past the job (8); where a flag, the cost
/// of a value or the kind of an entry names nothing (2); and 2 for more than 65,536 bytes.
///
/// ```
/// use parallel_moves::text;
///
/// let job = std::fs::read("../examples/swap-full.job").unwrap();
/// let words = text::from_bytes(&job).unwrap();
/// assert_eq!(words.lines().nth(12), Some("  move v0 from r0 to r1"));
/// assert_eq!(text::to_bytes(&words).unwrap(), job);
/// let cut_off = text::from_bytes(&job[..50]).unwrap_err();
/// assert_eq!((cut_off.byte(), cut_off.refusal().number()), (50, 1));
/// ```
pub fn from_bytes(job: &[u8]) -> Result<String, NoText> {
    JobBuilder::from_bytes(job).map(|job| job.to_string())
}

/// The bytes of the job that a text says.
///
/// # Errors
///
/// The line that is written otherwise, or at which the job is refused.
///
/// ```
/// use parallel_moves::text;
///
/// let job = std::fs::read("../examples/swap-full.job").unwrap();
/// let words = text::from_bytes(&job).unwrap();
/// let wrong = words.replace("v0 from r0 to r1", "v0 from r1 to r1");
/// let refused = text::to_bytes(&wrong).unwrap_err();
/// assert_eq!(
///     refused.to_string(),
///     "line 13: patch 1, entry 1: refused 10: a move's source is its destination"
/// );
/// ```
pub fn to_bytes(text: &str) -> Result<Vec<u8>, TextError> {
    let (job, lines) = lines::read(text)?;
    job.bytes().map_err(|error| TextError::Refused {
        line: lines::line_of(&lines, error.part()),
        error,
    })
}

/// The words for what rebuilding a value costs.
const COSTS: [(RematCost, &str); 2] = [
    (RematCost::CheaperThanMove, "cheaper-than-move"),
    (RematCost::CheaperThanLoad, "cheaper-than-load"),
];

/// Why a text is no job. Lines are counted from 1.
#[derive(Clone, Debug, PartialEq, Eq)]
#[non_exhaustive]
pub enum TextError {
    /// A line is written otherwise.
    Written {
        /// The line.
        line: usize,
        /// What is wrong with it.
        what: String,
    },
    /// The job is refused.
    Refused {
        /// The line of the part that is, if it has one.
        line: Option<usize>,
        /// The part, and why.
        error: BuildError,
    },
}

impl TextError {
    /// The line, if it is one.
    #[must_use]
    pub fn line(&self) -> Option<usize> {
        match *self {
            TextError::Written { line, .. } => Some(line),
            TextError::Refused { line, .. } => line,
        }
    }
}

/// Prints the line, and what is wrong.
impl fmt::Display for TextError {
    fn fmt(&self, f: &mut fmt::Formatter<'_>) -> fmt::Result {
        if let Some(line) = self.line() {
            write!(f, "line {line}: ")?;
        }
        match self {
            TextError::Written { what, .. } => f.write_str(what),
            TextError::Refused { error, .. } => error.fmt(f),
        }
    }
}

impl Error for TextError {}
