//! Both settings tried on patches that are drawn.

use std::fmt;

use crate::price::Prices;
use crate::refusal::Refusal;
use crate::sys;

/// Draws patches of a function from a seed, and counts what becomes of them with one kept
/// eviction and with two, in this order: each time from the same seed, and with no
/// emergency slot made before. `docs/JOB.md` of the repository says how patches are drawn.
///
/// The bytes are a target and a function, as for
/// [`ParallelMoves::open`](crate::ParallelMoves::open), or a whole job of them, whose own
/// patches are read and tested, but not resolved: what is counted is the same.
///
/// # Errors
///
/// [`Refusal::NamesNothing`], before all else, if `patches` is not from 1 to 1,024; then the
/// refusals 1 to 7 of the target, [`Refusal::OutsidePrice`] for a price above 65,535, and
/// the refusals of the function. If something stands behind it, then those of reading the job
/// to its end, as of [`write`](crate::write()): 1 to 15, 21, and 8.
///
/// ```
/// use parallel_moves::{Prices, Refusal, try_settings};
///
/// let prices = Prices { moves: 4, remats: 6, spills: 16, reloads: 12 };
/// let job = std::fs::read("../examples/swap-full.job").unwrap();
/// let [one, two] = try_settings(&job, prices, 0, 1024).unwrap();
/// // Three registers, of which a draw's source is mostly its destination.
/// assert_eq!((one.accepted, one.moves, one.price), (1, 1, 4));
/// assert_eq!(one.refused(Refusal::SelfMove), 7_547);
/// assert_eq!(one.refused(Refusal::WrittenTwice), 1_661);
/// assert_eq!(one, two);
/// // The same without the patch count and the patch.
/// let function = &job[..job.len() - 11];
/// assert_eq!(try_settings(function, prices, 0, 1024), Ok([one, two]));
/// ```
pub fn try_settings(
    job: &[u8],
    prices: Prices,
    seed: u32,
    patches: u32,
) -> Result<[Tally; 2], Refusal> {
    match sys::try_settings(job, prices.numbers(), seed, patches) {
        Ok(tallies) => Ok(tallies.map(|cells| Tally::of(&cells))),
        Err(number) => Err(Refusal::given(number)),
    }
}

/// What became of the patches that were drawn at one setting, in exact counts.
#[derive(Clone, Debug, PartialEq, Eq)]
pub struct Tally {
    /// How many patches were accepted.
    pub accepted: u64,
    /// How many `M` their edits have.
    pub moves: u64,
    /// How many `R`.
    pub remats: u64,
    /// How many `S`.
    pub spills: u64,
    /// How many `L`.
    pub reloads: u64,
    /// How often a register was evicted.
    pub evictions: u64,
    /// What the edits cost together.
    pub price: u64,
    /// How often a patch was refused, by number; those that were drawn over are among them.
    pub refusals: Refusals,
}

/// How often patches were refused, by number.
#[derive(Clone, PartialEq, Eq)]
pub struct Refusals {
    /// None are by 0.
    by_number: Box<[u64; 256]>,
}

impl Tally {
    /// Of the library's cells.
    fn of(cells: &sys::Tally) -> Self {
        let [
            accepted,
            moves,
            remats,
            spills,
            reloads,
            evictions,
            price,
            by_number @ ..,
        ] = *cells;
        Tally {
            accepted,
            moves,
            remats,
            spills,
            reloads,
            evictions,
            price,
            refusals: Refusals {
                by_number: Box::new(by_number),
            },
        }
    }

    /// How often a patch was refused so.
    #[must_use]
    pub fn refused(&self, refusal: Refusal) -> u64 {
        self.refusals.by_number[usize::from(refusal.number())]
    }

    /// How many patches were drawn: each is accepted or refused.
    #[must_use]
    pub fn drawn(&self) -> u64 {
        self.accepted + self.refusals.by_number.iter().sum::<u64>()
    }
}

impl Refusals {
    /// The refusals that there were, with their counts, by rising numbers.
    pub fn iter(&self) -> impl Iterator<Item = (Refusal, u64)> + '_ {
        let numbered = (0..=u8::MAX).zip(self.by_number.iter().copied());
        numbered.filter_map(|(number, count)| {
            let refusal = Refusal::of_number(number)?;
            (count > 0).then_some((refusal, count))
        })
    }
}

impl fmt::Debug for Refusals {
    fn fmt(&self, f: &mut fmt::Formatter<'_>) -> fmt::Result {
        f.debug_map().entries(self.iter()).finish()
    }
}
