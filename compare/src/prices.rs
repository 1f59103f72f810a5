//! What patches cost (request 02 e), and which of two lists costs less (02 f), by a
//! reading of our own: from the lines that are printed of an answer, and in whole numbers
//! without bounds.

use crate::number::{NAMES_NOTHING, Refused};
use crate::random::Random;

/// 19: a price, or a run count, outside its range.
pub const PRICE_OUTSIDE: Refused = Refused(19);

/// "a price in quarter cycles, 0 to 65,535, for M, R, S and L"
pub type Prices = [u32; 4];

/// "a whole number from 0 and below 2^26"
const MOST_RUNS: u64 = (1 << 26) - 1;
const MOST_PRICE: u32 = 65_535;

/// What is asked about an answer's patches.
#[derive(Clone, Copy, Debug)]
pub struct Asked {
    pub prices: Prices,
    pub runs: u64,
}

/// The record of an edge.
#[derive(Clone, Copy, Debug, PartialEq, Eq)]
pub struct Edge {
    pub total: u128,
    pub runs: u128,
    pub product: u128,
}

impl Asked {
    /// Prices and a run count that are mostly in range, and often at its ends.
    pub fn random(random: &mut Random) -> Asked {
        let mut prices = [0; 4];
        let flat = random.chance(10);
        for price in &mut prices {
            *price = match random.below(5) {
                _ if flat => 7,
                0 => 0,
                1 => MOST_PRICE,
                2 => random.below(30) as u32,
                _ => random.below(65_536) as u32,
            };
        }
        if random.chance(8) {
            let over = [MOST_PRICE + 1, 131_071, 1 << 31, u32::MAX];
            prices[random.below(4)] = *random.pick(&over);
        }
        let runs = match random.below(8) {
            0 => 0,
            1 => MOST_RUNS,
            2 => random.below(1000) as u64,
            3 if random.chance(60) => {
                *random.pick(&[MOST_RUNS + 1, MOST_RUNS + 2, 1 << 28, 1 << 32, u64::MAX])
            }
            _ => random.next() % (MOST_RUNS + 1),
        };
        Asked { prices, runs }
    }

    pub fn prices_in_range(&self) -> bool {
        self.prices.iter().all(|&price| price <= MOST_PRICE)
    }

    /// The record of the patch with a number, counted from 1, among those that cost
    /// `totals`. The run count is "tested first".
    pub fn edge(&self, totals: &[u128], patch: usize) -> Result<Edge, Refused> {
        if self.runs > MOST_RUNS || !self.prices_in_range() {
            return Err(PRICE_OUTSIDE);
        }
        let index = patch.checked_sub(1).ok_or(NAMES_NOTHING)?;
        let &total = totals.get(index).ok_or(NAMES_NOTHING)?;
        let runs = u128::from(self.runs);
        Ok(Edge {
            total,
            runs,
            product: runs * total,
        })
    }
}

/// "hands back the cheaper [..], the first where both cost the same": 1 or 2, of lists
/// with so many entries that cost so much. "A price outside its range, or a list of over
/// 65,536 entries, gives 19".
pub fn cheaper(asked: &Asked, lengths: [usize; 2], totals: [u128; 2]) -> u8 {
    let [first, second] = totals;
    match () {
        _ if !asked.prices_in_range() => PRICE_OUTSIDE.0,
        _ if lengths.iter().any(|&length| length > 65_536) => PRICE_OUTSIDE.0,
        _ if second < first => 2,
        _ => 1,
    }
}

/// What each patch of an answer costs, by the letters that its lines begin with.
pub fn totals(text: &str, prices: Prices) -> Vec<u128> {
    let mut totals: Vec<u128> = Vec::new();
    for line in text.lines() {
        let kind = ["M ", "R ", "S ", "L "]
            .into_iter()
            .position(|letter| line.starts_with(letter));
        match kind {
            Some(kind) => *totals.last_mut().expect("a patch") += u128::from(prices[kind]),
            None if line.starts_with("patch ") => totals.push(0),
            None => {}
        }
    }
    totals
}
