//! What a whole job is answered.

use std::error::Error;
use std::fmt;
use std::iter::FusedIterator;

use crate::edit::Edits;
use crate::refusal::Refusal;
use crate::sys;

/// The answer of a job: its resolved patches.
///
/// It is printed as the program `resolve` prints it.
#[derive(Clone, PartialEq, Eq, Hash)]
#[must_use = "a patch is carried out only if all its edits are done"]
pub struct Answer {
    /// For each patch a head, `((position * 2^16 + made) * 2^16 + count) * 8`,
    /// and its edits.
    words: Box<[u64]>,
}

impl Answer {
    /// The answer with these words, as the library gave them.
    pub(crate) fn new(words: &[u64]) -> Self {
        Answer {
            words: words.into(),
        }
    }

    /// The patches that were resolved, in the job's order.
    pub fn patches(&self) -> Patches<'_> {
        Patches { words: &self.words }
    }

    /// A resolved patch by its number, counted from 1 as it is printed.
    ///
    /// ```
    /// use parallel_moves::Resolver;
    ///
    /// let job = std::fs::read("../examples/enough-two-sizes.job").unwrap();
    /// let answer = Resolver::new().answer(1, &job).unwrap();
    /// assert_eq!(answer.patch(1), answer.patches().next());
    /// assert_eq!(answer.patch(0), None);
    /// ```
    #[must_use]
    pub fn patch(&self, number: usize) -> Option<ResolvedPatch<'_>> {
        self.patches().nth(number.checked_sub(1)?)
    }

    /// The text of the answer, as the program `resolve` prints it.
    #[must_use]
    pub fn text(&self) -> String {
        text(&self.words, 0)
    }
}

/// The text of words and a refusal's number or 0.
fn text(words: &[u64], refusal: u8) -> String {
    let mut text = vec![0; 20 * words.len() + 40];
    let length = loop {
        match sys::text(words, refusal, &mut text) {
            Some(length) => break length,
            None => text.resize(2 * text.len(), 0),
        }
    };
    text.truncate(length);
    String::from_utf8(text).expect("the library writes ASCII")
}

impl<'a> IntoIterator for &'a Answer {
    type Item = ResolvedPatch<'a>;
    type IntoIter = Patches<'a>;

    fn into_iter(self) -> Patches<'a> {
        self.patches()
    }
}

impl fmt::Display for Answer {
    fn fmt(&self, f: &mut fmt::Formatter<'_>) -> fmt::Result {
        f.write_str(&self.text())
    }
}

impl fmt::Debug for Answer {
    fn fmt(&self, f: &mut fmt::Formatter<'_>) -> fmt::Result {
        self.patches().fmt(f)
    }
}

/// A job that was not answered to its end: why, and the patches before the
/// refused one.
#[derive(Clone, Debug, PartialEq, Eq, Hash)]
#[must_use = "the job was not answered to its end"]
pub struct RefusedJob {
    refusal: Refusal,
    before: Answer,
}

impl RefusedJob {
    pub(crate) fn new(refusal: Refusal, before: Answer) -> Self {
        RefusedJob { refusal, before }
    }

    /// Why it was refused.
    pub fn refusal(&self) -> Refusal {
        self.refusal
    }

    /// The patches before the refused one. They stand; it and those after it
    /// have no edits, so the function is not complete.
    pub fn before(&self) -> &Answer {
        &self.before
    }

    /// The text of the answer, as the program `resolve` prints it.
    #[must_use]
    pub fn text(&self) -> String {
        text(&self.before.words, self.refusal.number())
    }
}

impl From<RefusedJob> for Refusal {
    fn from(refused: RefusedJob) -> Self {
        refused.refusal
    }
}

/// Prints `refused`, the number, and the cause in words.
impl fmt::Display for RefusedJob {
    fn fmt(&self, f: &mut fmt::Formatter<'_>) -> fmt::Result {
        self.refusal.fmt(f)
    }
}

impl Error for RefusedJob {
    fn source(&self) -> Option<&(dyn Error + 'static)> {
        Some(&self.refusal)
    }
}

/// The resolved patches of an [`Answer`], in order.
#[derive(Clone)]
#[must_use = "iterators are lazy"]
pub struct Patches<'a> {
    /// The words from the next patch's head on.
    words: &'a [u64],
}

impl<'a> Iterator for Patches<'a> {
    type Item = ResolvedPatch<'a>;

    fn next(&mut self) -> Option<ResolvedPatch<'a>> {
        let &head = self.words.first()?;
        let count = (head / 8 % 65_536) as usize;
        let (words, rest) = self.words.split_at(1 + count);
        self.words = rest;
        Some(ResolvedPatch { words })
    }
}

impl FusedIterator for Patches<'_> {}

impl fmt::Debug for Patches<'_> {
    fn fmt(&self, f: &mut fmt::Formatter<'_>) -> fmt::Result {
        f.debug_list().entries(self.clone()).finish()
    }
}

/// A resolved patch of a job.
#[derive(Clone, Copy, PartialEq, Eq, Hash)]
#[must_use = "a patch is carried out only if all its edits are done"]
pub struct ResolvedPatch<'a> {
    /// Its head and its edits.
    words: &'a [u64],
}

impl<'a> ResolvedPatch<'a> {
    /// Its head and its edits.
    pub(crate) fn words(&self) -> &'a [u64] {
        self.words
    }

    /// The edits that carry the patch out, to be done in this order.
    pub fn edits(&self) -> Edits<'a> {
        Edits::new(&self.words[1..])
    }

    /// How many emergency slots the function has after this patch. They are
    /// numbered from its ordinary slots on; `docs/JOB.md` says how large each
    /// is.
    #[must_use]
    pub fn made(&self) -> usize {
        (self.words[0] / 524_288 % 65_536) as usize
    }

    /// The greatest position that a search of the patch for a scratch register
    /// met, 0 without searches. The position of a search is where in its class's
    /// order the register stands that it found, counted from 0, or the order's
    /// length where none there would do.
    #[must_use]
    pub fn position(&self) -> usize {
        (self.words[0] / 34_359_738_368 % 65_536) as usize
    }
}

impl<'a> IntoIterator for ResolvedPatch<'a> {
    type Item = crate::Edit;
    type IntoIter = crate::Iter<'a>;

    fn into_iter(self) -> crate::Iter<'a> {
        self.edits().iter()
    }
}

impl fmt::Debug for ResolvedPatch<'_> {
    fn fmt(&self, f: &mut fmt::Formatter<'_>) -> fmt::Result {
        f.debug_struct("ResolvedPatch")
            .field("edits", &self.edits())
            .field("made", &self.made())
            .field("position", &self.position())
            .finish()
    }
}
