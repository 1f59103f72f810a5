//! A job opened on both sides, and its calls timed in turn.

use std::hint::black_box;

use crate::draft::Draft;
use crate::ours::{self, timed_ours_job, timed_ours_patch};
use crate::theirs::{self, timed_original_job, timed_original_patch};
use crate::time::{self, Clock, median};

/// The working memory of both sides.
pub struct Memory {
    pub ours: ours::Memory,
    pub theirs: theirs::Memory,
}

impl Memory {
    pub fn new() -> Self {
        Memory {
            ours: ours::Memory::new(),
            theirs: theirs::Memory::new(),
        }
    }
}

/// A job opened on both sides.
pub struct Pair {
    pub ours: ours::Job,
    pub theirs: theirs::Job,
    pub patches: usize,
}

impl Pair {
    pub fn open(draft: &Draft) -> Self {
        let ours = ours::Job::open(draft);
        let theirs = theirs::Job::open(draft).expect("compare's reader refuses the job");
        Pair {
            ours,
            theirs,
            patches: draft.patches.len(),
        }
    }

    /// Resolves each patch on both sides, whose edits must be the same.
    pub fn compare(&mut self, memory: &mut Memory) {
        for patch in 0..self.patches {
            let count = timed_ours_patch(&mut self.ours, &mut memory.ours, patch);
            let edits = timed_original_patch(&mut self.theirs, &mut memory.theirs, patch);
            assert_eq!(count, edits, "the counts of edits differ");
            assert_eq!(
                memory.ours.list(count),
                memory.theirs.list(),
                "edits differ"
            );
        }
    }

    /// Answers the job on both sides, whose words must be the same but for the
    /// positions in the heads, which the original does not tell.
    pub fn compare_job(&self, memory: &mut Memory) {
        let (bytes, len) = (self.ours.bytes.as_ptr(), self.ours.bytes.len());
        let count = timed_ours_job(bytes, len, &mut memory.ours);
        let words = timed_original_job(bytes, len, &mut memory.theirs);
        assert_ne!(count, 0, "the job is refused");
        assert_eq!(count, words, "the counts of words differ");
        let words = memory.ours.words(count).iter();
        assert!(
            words.map(without_position).eq(memory.theirs.words().iter().copied()),
            "words differ"
        );
    }
}

/// A head without its position; any other word.
fn without_position(word: &u64) -> u64 {
    if word % 8 == 0 { word % (1 << 35) } else { *word }
}

/// Nanoseconds of ours and of the original.
#[derive(Clone, Copy)]
pub struct Taken {
    pub ours: f64,
    pub theirs: f64,
}

impl Taken {
    pub fn ratio(self) -> f64 {
        self.ours / self.theirs
    }
}

fn time_ours(pair: &mut Pair, memory: &mut Memory, patch: usize) -> f64 {
    let from = time::ticks();
    black_box(timed_ours_patch(&mut pair.ours, &mut memory.ours, patch));
    (time::ticks() - from) as f64
}

fn time_theirs(pair: &mut Pair, memory: &mut Memory, patch: usize) -> f64 {
    let from = time::ticks();
    black_box(timed_original_patch(
        &mut pair.theirs,
        &mut memory.theirs,
        patch,
    ));
    (time::ticks() - from) as f64
}

/// The ticks that each call took.
struct Ticks {
    ours: Vec<Vec<f64>>,
    theirs: Vec<Vec<f64>>,
}

impl Ticks {
    fn new(count: usize, rounds: usize) -> Self {
        Ticks {
            ours: vec![Vec::with_capacity(rounds); count],
            theirs: vec![Vec::with_capacity(rounds); count],
        }
    }

    fn medians(self, clock: &Clock) -> Vec<Taken> {
        let ns = |ticks| clock.ns(median(ticks));
        self.ours
            .into_iter()
            .zip(self.theirs)
            .map(|(ours, theirs)| Taken {
                ours: ns(ours),
                theirs: ns(theirs),
            })
            .collect()
    }
}

/// Adding and resolving. The sides take turns patch by patch, each first in
/// every other round; of each patch the median over the rounds.
pub fn time_patches(
    clock: &Clock,
    pairs: &mut [Pair],
    memory: &mut Memory,
    rounds: usize,
) -> Vec<Taken> {
    let count = pairs.iter().map(|pair| pair.patches).sum();
    let mut ticks = Ticks::new(count, rounds);
    // A sweep over all patches, so that no call follows another of the same
    // patch on its side.
    for round in 0..rounds {
        let mut at = 0;
        for pair in &mut *pairs {
            for patch in 0..pair.patches {
                if round % 2 == 0 {
                    ticks.ours[at].push(time_ours(pair, memory, patch));
                    ticks.theirs[at].push(time_theirs(pair, memory, patch));
                } else {
                    ticks.theirs[at].push(time_theirs(pair, memory, patch));
                    ticks.ours[at].push(time_ours(pair, memory, patch));
                }
                at += 1;
            }
        }
    }
    ticks.medians(clock)
}

/// The same of whole jobs.
pub fn time_jobs(clock: &Clock, pairs: &[Pair], memory: &mut Memory, rounds: usize) -> Vec<Taken> {
    let mut ticks = Ticks::new(pairs.len(), rounds);
    for round in 0..rounds {
        for (at, pair) in pairs.iter().enumerate() {
            let (bytes, len) = (pair.ours.bytes.as_ptr(), pair.ours.bytes.len());
            let mut time_ours = || {
                let from = time::ticks();
                black_box(timed_ours_job(bytes, len, &mut memory.ours));
                ticks.ours[at].push((time::ticks() - from) as f64);
            };
            let mut time_theirs = || {
                let from = time::ticks();
                black_box(timed_original_job(bytes, len, &mut memory.theirs));
                ticks.theirs[at].push((time::ticks() - from) as f64);
            };
            if round % 2 == 0 {
                time_ours();
                time_theirs();
            } else {
                time_theirs();
                time_ours();
            }
        }
    }
    ticks.medians(clock)
}
