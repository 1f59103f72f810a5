//! Whole jobs.

use std::fmt;

use crate::answer::{Answer, RefusedJob};
use crate::locate;
use crate::reading::Location;
use crate::refusal::Refusal;
use crate::sys::Tables;

/// How many words a resolver has room for at first.
const FIRST_ROOM: usize = 2048;
/// As many are enough for every job: a move has at least 4 of its 65,536 bytes
/// and at most 8 edits, a rebuild 3 and 5, and there are 1,024 patches.
const MOST_WORDS: usize = 2 * 65_536 + 1024;

/// Answers whole jobs.
///
/// It owns the memory that the work is done in, about half a megabyte, and uses
/// it again from call to call: make one and keep it, or one for each thread. No
/// call depends on the calls before it.
pub struct Resolver {
    tables: Tables,
    /// Where answers are made, before they are handed out.
    words: Vec<u64>,
}

impl Resolver {
    /// A resolver with memory of its own, on the heap.
    #[must_use]
    pub fn new() -> Self {
        Resolver {
            tables: Tables::new(),
            words: vec![0; FIRST_ROOM],
        }
    }

    /// Answers a whole job: its patches one after the other, each with its
    /// edits. Of the registers that are evicted in them, `kept_evictions`, 1 or 2,
    /// may be so at once.
    ///
    /// # Errors
    ///
    /// If the job is refused; the patches before the refused one stand, and
    /// the error has them. Any bytes can be given. 16 never comes.
    /// [`Refusal::NoSuchSetting`] comes before all else, if `kept_evictions` is
    /// neither 1 nor 2.
    ///
    /// ```
    /// use parallel_moves::{Refusal, Resolver};
    ///
    /// let refused = Resolver::new().answer(1, &[]).unwrap_err();
    /// assert_eq!(refused.refusal(), Refusal::NotANumber);
    /// assert_eq!(refused.text(), "refused 1\n");
    /// ```
    pub fn answer(&mut self, kept_evictions: u32, job: &[u8]) -> Result<Answer, RefusedJob> {
        self.answered(|tables, words| tables.answer(kept_evictions, job, words))
    }

    /// What is answered with words enough.
    fn answered(
        &mut self,
        by: impl Fn(&mut Tables, &mut [u64]) -> (usize, u8),
    ) -> Result<Answer, RefusedJob> {
        loop {
            let (count, number) = by(&mut self.tables, &mut self.words);
            let refusal = Refusal::of_number(number);
            let room = self.words.len();
            if refusal == Some(Refusal::ListTooShort) && room < MOST_WORDS {
                self.words.resize(MOST_WORDS.min(2 * room), 0);
                continue;
            }
            let answer = Answer::new(&self.words[..count]);
            return match refusal {
                None => Ok(answer),
                Some(refusal) => Err(RefusedJob::new(refusal, answer)),
            };
        }
    }

    /// As [`Resolver::answer`], each patch by groups:
    /// [`ParallelMoves::resolve_by_groups`](crate::ParallelMoves::resolve_by_groups).
    ///
    /// # Errors
    ///
    /// As [`Resolver::answer`]; [`Refusal::OutOfSlots`] where a group gets it.
    ///
    /// ```
    /// use parallel_moves::Resolver;
    ///
    /// // Two slots change contents, and two registers, with an emergency slot of theirs.
    /// let job = std::fs::read("../examples/pictures/slot-handed-on.job").unwrap();
    /// let answer = Resolver::new().answer_by_groups(1, &job).unwrap();
    /// let patch = answer.patches().next().unwrap();
    /// assert_eq!((patch.edits().len(), patch.made()), (11, 2));
    /// ```
    pub fn answer_by_groups(
        &mut self,
        kept_evictions: u32,
        job: &[u8],
    ) -> Result<Answer, RefusedJob> {
        self.answered(|tables, words| tables.answer_groups(kept_evictions, job, words))
    }

    /// Where a job is refused, which was so refused with as many `kept_evictions`: the byte
    /// and the part, by a second reading. None, where that does not end in the same
    /// refusal.
    ///
    /// It answers beginnings of the job, about 16 of them.
    ///
    /// ```
    /// use parallel_moves::Resolver;
    ///
    /// let mut job = std::fs::read("../examples/swap-full.job").unwrap();
    /// // The first move goes where it came from.
    /// job[51] = job[50];
    /// let mut resolver = Resolver::new();
    /// let refusal = resolver.answer(1, &job).unwrap_err().refusal();
    /// assert_eq!(refusal.number(), 10);
    /// let location = resolver.locate(1, &job, refusal).unwrap();
    /// assert_eq!(location.to_string(), "byte 49: patch 1, entry 1");
    /// ```
    #[must_use]
    pub fn locate(
        &mut self,
        kept_evictions: u32,
        job: &[u8],
        refusal: Refusal,
    ) -> Option<Location> {
        locate::location(self, kept_evictions, job, refusal)
    }
}

impl Default for Resolver {
    fn default() -> Self {
        Resolver::new()
    }
}

impl fmt::Debug for Resolver {
    fn fmt(&self, f: &mut fmt::Formatter<'_>) -> fmt::Result {
        f.debug_struct("Resolver").finish_non_exhaustive()
    }
}
