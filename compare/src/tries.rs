//! Patches drawn from a seed, to try both settings on (request 02 n), by a reading of
//! our own: drawn, judged and counted, with one kept eviction by the original, with
//! two by the rules written a second time.

use std::fmt::{self, Display, Formatter};

use original::function::Function as _;

use crate::answer::{Judge, MOST_BYTES, SETTINGS};
use crate::calls::{Call, Function, Room, Session};
use crate::number::{NAMES_NOTHING, Reader, Refused};
use crate::reading;
use crate::target::Target;
use crate::values::Values;

/// "each draw adds 2,654,435,769 to the seed"
const STEP: u32 = 2_654_435_769;
/// "make 1 to 1,024 patches (else 2)"
const MOST_PATCHES: u64 = 1024;
/// "drawn over [..] at most 8 times"
const MOST_DRAWN_OVER: usize = 8;
/// 19: a price outside its range.
const PRICE_OUTSIDE: Refused = Refused(19);
const MOST_PRICE: u64 = 65_535;

/// What is asked for. No number is in range yet.
#[derive(Clone, Copy, Debug)]
pub struct Asked {
    pub seed: u64,
    pub patches: u64,
    /// Of M, R, S and L.
    pub prices: [u64; 4],
}

/// "in exact counts the accepted patches, their edits by kind, evictions and total
/// price, and all refusals by number"
#[derive(Clone, Debug, PartialEq, Eq)]
pub struct Counts {
    pub accepted: u64,
    /// M, R, S and L.
    pub edits: [u64; 4],
    pub evictions: u64,
    pub price: u64,
    pub refusals: [u64; 256],
}

impl Default for Counts {
    fn default() -> Self {
        Counts {
            accepted: 0,
            edits: [0; 4],
            evictions: 0,
            price: 0,
            refusals: [0; 256],
        }
    }
}

/// The counts of both settings.
pub struct Tried {
    asked: Asked,
    pub counts: [Counts; 2],
}

/// A seed, and what is drawn from it.
struct Seed(u32);

impl Seed {
    /// "past 2^32 starting over, and is the seed after it"
    fn draw(&mut self) -> u32 {
        self.0 = self.0.wrapping_add(STEP);
        self.0
    }

    /// "modulo the count"
    fn below(&mut self, count: usize) -> usize {
        (u64::from(self.draw()) % count as u64) as usize
    }
}

/// Tries both settings, "both from the same seed and a fresh cache".
pub fn tried(asked: Asked, job: &[u8]) -> Result<Tried, Refused> {
    let seed = u32::try_from(asked.seed).map_err(|_| NAMES_NOTHING)?;
    if asked.patches == 0 || asked.patches > MOST_PATCHES {
        return Err(NAMES_NOTHING);
    }
    let mut counts = [Counts::default(), Counts::default()];
    for (counts, kept_evictions) in counts.iter_mut().zip(SETTINGS) {
        let function = open(kept_evictions, asked.prices, job)?;
        *counts = tried_at(&function, seed, asked);
    }
    Ok(Tried { asked, counts })
}

/// Reads a function, the prices tested behind the target ("tested after 7"). It stands alone,
/// or in a job that is read to its end.
fn open(kept_evictions: u32, prices: [u64; 4], job: &[u8]) -> Result<Function, Refused> {
    if job.len() > MOST_BYTES {
        return Err(NAMES_NOTHING);
    }
    let mut reader = Reader::new(job);
    let target = Target::read(&mut reader)?;
    if prices.iter().any(|&price| price > MOST_PRICE) {
        return Err(PRICE_OUTSIDE);
    }
    let values = Values::read(&mut reader, &target)?;
    if !reader.at_end() {
        reading::read_patches(&mut reader, &target, &values)?;
    }
    Ok(Function {
        judge: Judge::of(kept_evictions)?,
        target,
        values,
    })
}

/// Draws, tests and counts at the function's setting.
fn tried_at(function: &Function, seed: u32, asked: Asked) -> Counts {
    let mut counts = Counts::default();
    // "Without values all counts are 0."
    if function.values.num_values() == 0 {
        return counts;
    }
    let mut seed = Seed(seed);
    let mut session = Session::new(function);
    for _ in 0..asked.patches {
        // "a refused one is counted and drawn over, from the seed it left"
        for _ in 0..=MOST_DRAWN_OVER {
            let call = drawn(&mut seed, function);
            match session.call(&call).outcome {
                Ok(words) => {
                    counts.accept(&words, asked.prices);
                    break;
                }
                Err(Refused(number)) => counts.refusals[usize::from(number)] += 1,
            }
        }
    }
    counts
}

/// "A patch draws its entry count, 1 more than the draw modulo 16, then for each move
/// the source, destination and value, modulo the count of places (registers first,
/// then the N slots) or of values. No unit is free. A patch is drawn whole before it
/// is tested"
fn drawn(seed: &mut Seed, function: &Function) -> Call {
    let registers = function.target.registers.len();
    let places = registers + function.values.slots;
    let values = function.values.num_values();
    let code = |place: usize| {
        if place < registers {
            2 * place + 1
        } else {
            2 * (place - registers)
        }
    };
    let mut numbers = Vec::new();
    for _ in 0..1 + seed.below(16) {
        let source = code(seed.below(places));
        let dest = code(seed.below(places));
        let value = seed.below(values);
        numbers.extend([0, source, dest, value].map(|number| number as u32));
    }
    Call {
        free: Vec::new(),
        numbers,
        room: Room::Most,
    }
}

impl Counts {
    /// Counts an accepted patch and its edits.
    fn accept(&mut self, words: &[u64], prices: [u64; 4]) {
        self.accepted += 1;
        for word in words {
            let kind = (word % 8) as usize - 1;
            self.edits[kind] += 1;
            self.price += prices[kind];
            // A register is evicted where its reload is made.
            if kind == 3 {
                self.evictions += 1;
            }
        }
    }
}

/// What the program `try_settings` prints.
impl Display for Tried {
    fn fmt(&self, f: &mut Formatter<'_>) -> fmt::Result {
        let Tried { asked, counts } = self;
        let mut rows = vec![
            ("kept".to_owned(), SETTINGS.map(u64::from)),
            ("accepted".to_owned(), self.each(|c| c.accepted)),
        ];
        for (kind, name) in ["M", "R", "S", "L"].into_iter().enumerate() {
            rows.push((name.to_owned(), self.each(|c| c.edits[kind])));
        }
        rows.push(("evictions".to_owned(), self.each(|c| c.evictions)));
        rows.push(("price".to_owned(), self.each(|c| c.price)));
        for number in 0..256 {
            if counts.iter().any(|c| c.refusals[number] > 0) {
                rows.push((
                    format!("refused {number}"),
                    self.each(|c| c.refusals[number]),
                ));
            }
        }
        writeln!(f, "seed {} patches {}", asked.seed, asked.patches)?;
        for (label, [one, two]) in rows {
            writeln!(f, "{label:12}{one:12}{two:12}")?;
        }
        Ok(())
    }
}

impl Tried {
    fn each(&self, count: impl Fn(&Counts) -> u64) -> [u64; 2] {
        let [one, two] = &self.counts;
        [count(one), count(two)]
    }
}
