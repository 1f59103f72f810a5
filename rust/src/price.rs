//! What edits cost.

use crate::answer::ResolvedPatch;
use crate::edit::Edits;
use crate::refusal::Refusal;
use crate::sys;

/// What an edit of each kind costs on a target, in quarter cycles: 0 to 65,535.
///
/// Prices are given beside a job and are no part of its bytes. Any can be given; one
/// above 65,535 is refused where they are used, and by
/// [`ParallelMoves::open_priced`](crate::ParallelMoves::open_priced) and [`priced_job`] when
/// the target is read to its end.
#[derive(Clone, Copy, Debug, Default, PartialEq, Eq, Hash)]
pub struct Prices {
    /// Of [`Edit::Move`](crate::Edit::Move), `M`.
    pub moves: u32,
    /// Of [`Edit::Rematerialize`](crate::Edit::Rematerialize), `R`.
    pub remats: u32,
    /// Of [`Edit::EmergencySpill`](crate::Edit::EmergencySpill), `S`.
    pub spills: u32,
    /// Of [`Edit::EmergencyReload`](crate::Edit::EmergencyReload), `L`.
    pub reloads: u32,
}

impl Prices {
    /// As the library takes them.
    pub(crate) fn numbers(self) -> [u32; 4] {
        [self.moves, self.remats, self.spills, self.reloads]
    }
}

/// What an edge costs: the total of its patch's edits beside how often it ran, and the
/// product of the two. Each number is exact.
#[derive(Clone, Copy, Debug, PartialEq)]
pub struct Edge {
    /// What the edits of its patch cost together, in quarter cycles: below 2^26.
    pub total: u64,
    /// How often it ran: below 2^26.
    pub runs: f64,
    /// Their product: below 2^52.
    pub product: f64,
}

impl ResolvedPatch<'_> {
    /// What the edge costs that the patch belongs to and that ran so often.
    ///
    /// # Errors
    ///
    /// [`Refusal::OutsidePrice`] if `runs` is 2^26 or more, or a price is above 65,535.
    ///
    /// ```
    /// use parallel_moves::{Prices, Refusal, Resolver};
    ///
    /// let prices = Prices { moves: 4, remats: 6, spills: 16, reloads: 12 };
    /// let job = std::fs::read("../examples/swap-full.job").unwrap();
    /// let answer = Resolver::new().answer(1, &job).unwrap();
    /// // M s0 r1 1, M r1 r0 0 and M r0 s0 1.
    /// let patch = answer.patches().next().unwrap();
    /// let edge = patch.price(prices, 100).unwrap();
    /// assert_eq!((edge.total, edge.runs, edge.product), (12, 100.0, 1200.0));
    /// assert_eq!(patch.price(prices, 1 << 26), Err(Refusal::OutsidePrice));
    /// ```
    pub fn price(&self, prices: Prices, runs: u64) -> Result<Edge, Refusal> {
        sys::price(self.words(), 1, prices.numbers(), runs).map_err(Refusal::given)
    }
}

impl<'a> Edits<'a> {
    /// What the edge costs that ran so often and whose patch has these edits.
    ///
    /// # Errors
    ///
    /// As [`ResolvedPatch::price`].
    pub fn price(&self, prices: Prices, runs: u64) -> Result<Edge, Refusal> {
        sys::price_edits(self.words(), prices.numbers(), runs).map_err(Refusal::given)
    }

    /// These edits, or the others if those cost less.
    ///
    /// # Errors
    ///
    /// [`Refusal::OutsidePrice`] if a price is above 65,535.
    pub fn cheaper(self, others: Edits<'a>, prices: Prices) -> Result<Edits<'a>, Refusal> {
        cheaper(self.words(), others.words(), prices).map(Edits::new)
    }

    /// Whether these edits, the first, or the others cost less.
    ///
    /// # Errors
    ///
    /// As [`Edits::cheaper`].
    pub fn choose(self, others: Edits<'_>, prices: Prices) -> Result<Choice, Refusal> {
        choose(self.words(), others.words(), prices)
    }
}

/// How many patches a whole job says that it has, of a target with these prices. The patches
/// themselves are not read.
///
/// # Errors
///
/// As the opening of a job is refused: [`Refusal::NoSuchSetting`] before all else, the
/// refusals 1 to 7 of the target, [`Refusal::OutsidePrice`] for a price above 65,535, and then
/// those of the function and of the patch count.
///
/// ```
/// use parallel_moves::{Prices, Refusal, priced_job};
///
/// let prices = |moves| Prices { moves, remats: 6, spills: 16, reloads: 12 };
/// let job = std::fs::read("../examples/swap-full.job").unwrap();
/// assert_eq!(priced_job(1, prices(65_535), &job), Ok(1));
/// assert_eq!(priced_job(1, prices(65_536), &job), Err(Refusal::OutsidePrice));
/// ```
pub fn priced_job(kept_evictions: u32, prices: Prices, job: &[u8]) -> Result<u32, Refusal> {
    sys::priced_job(kept_evictions, prices.numbers(), job).map_err(Refusal::given)
}

/// The cheaper of two lists of edits, as words ([`Edits::words`]): one of the two slices
/// itself, the first where both cost the same.
///
/// The compiler can give the entries of a patch in two orders; this chooses between the
/// edits of the one and of the other. A word goes by its kind alone; one that is no edit's,
/// as a head, costs nothing.
///
/// # Errors
///
/// [`Refusal::OutsidePrice`] if a price is above 65,535 or a list has more than 65,536
/// words.
///
/// ```
/// use parallel_moves::{Prices, cheaper};
///
/// let prices = Prices { moves: 4, remats: 6, spills: 16, reloads: 12 };
/// let (three_moves, save_and_reload) = ([1, 1, 1], [3, 4]);
/// assert_eq!(cheaper(&save_and_reload, &three_moves, prices), Ok(&three_moves[..]));
/// // 12 and 12: the first.
/// assert_eq!(cheaper(&[4], &three_moves, prices), Ok(&[4][..]));
/// ```
pub fn cheaper<'a>(
    first: &'a [u64],
    second: &'a [u64],
    prices: Prices,
) -> Result<&'a [u64], Refusal> {
    choose(first, second, prices).map(|choice| match choice {
        Choice::First => first,
        Choice::Second => second,
    })
}

/// Which of two lists of edits is the cheaper, as [`cheaper()`] has it: for a caller who
/// keeps more than the words of each.
///
/// # Errors
///
/// As [`cheaper()`].
///
/// ```
/// use parallel_moves::{Choice, Prices, choose};
///
/// let prices = Prices { moves: 4, remats: 6, spills: 16, reloads: 12 };
/// assert_eq!(choose(&[3, 4], &[1, 1, 1], prices), Ok(Choice::Second));
/// assert_eq!(choose(&[4], &[1, 1, 1], prices), Ok(Choice::First));
/// ```
pub fn choose(first: &[u64], second: &[u64], prices: Prices) -> Result<Choice, Refusal> {
    sys::cheaper(first, second, prices.numbers()).map_err(Refusal::given)
}

/// Which of two lists is the cheaper.
#[derive(Clone, Copy, Debug, PartialEq, Eq, Hash)]
pub enum Choice {
    /// The first, also where both cost the same.
    First,
    /// The second.
    Second,
}

#[cfg(test)]
mod tests {
    use super::{Edge, Prices};
    use crate::edit::Edits;
    use crate::refusal::Refusal;
    use crate::{MOST_EDITS, sys};

    const MOST_RUNS: u64 = 67_108_863;

    fn prices([moves, remats, spills, reloads]: [u32; 4]) -> Prices {
        Prices {
            moves,
            remats,
            spills,
            reloads,
        }
    }

    /// 1,024 edits at 65,535 each, run 2^26 - 1 times: exact to the unit.
    #[test]
    fn dearest() {
        let list = [1; MOST_EDITS];
        let edge = Edits::new(&list).price(prices([65_535, 0, 0, 0]), MOST_RUNS);
        let edge = edge.unwrap();
        assert_eq!(edge.total, 67_107_840);
        assert_eq!(edge.runs as u64, MOST_RUNS);
        assert_eq!(edge.product as u64, 4_503_530_840_785_920);
        assert_eq!(edge.product, 4_503_530_840_785_920.0);
        // What f32 and u32 would lose.
        assert_ne!(f64::from(edge.product as f32), edge.product);
        assert!(edge.product as u64 > u64::from(u32::MAX));
    }

    /// Any word goes by its kind alone: 1 to 4, and others cost nothing.
    #[test]
    fn kinds() {
        let each = prices([1, 10, 100, 1000]);
        for (kind, price) in [0, 1, 10, 100, 1000, 0, 0, 0].into_iter().enumerate() {
            for rest in [0, 262_144, u64::MAX - 7] {
                let word = [rest + kind as u64];
                let edge = Edits::new(&word).price(each, 3).unwrap();
                assert_eq!((edge.total, edge.product), (price, 3.0 * price as f64));
            }
        }
    }

    /// One more than a patch has is refused by 2, after 19.
    #[test]
    fn too_many() {
        let list = [1; MOST_EDITS + 1];
        let edits = Edits::new(&list);
        let each = prices([1; 4]);
        assert_eq!(edits.price(each, 0), Err(Refusal::NamesNothing));
        assert_eq!(edits.price(each, MOST_RUNS + 1), Err(Refusal::OutsidePrice));
        let too_dear = prices([65_536, 0, 0, 0]);
        assert_eq!(edits.price(too_dear, 0), Err(Refusal::OutsidePrice));
    }

    /// Patches are counted from 1, and heads stand between them.
    #[test]
    fn patches_of_words() {
        let words = [16, 1, 2, 0, 8, 4];
        let price = |patch| sys::price(&words, patch, [1, 10, 100, 1000], 2);
        let edge = |total| {
            let product = 2.0 * total as f64;
            Ok(Edge {
                total,
                runs: 2.0,
                product,
            })
        };
        assert_eq!(price(0), Err(2));
        assert_eq!(price(1), edge(11));
        assert_eq!(price(2), edge(0));
        assert_eq!(price(3), edge(1000));
        assert_eq!(price(4), Err(2));
        // The second's head counts more than there are, or than a patch has.
        assert_eq!(sys::price(&[0, 16, 1], 2, [1; 4], 0), Err(2));
        let mut many = vec![1; MOST_EDITS + 2];
        many[0] = 8 * (MOST_EDITS as u64 + 1);
        assert_eq!(sys::price(&many, 1, [1; 4], 0), Err(2));
    }
}
