//! Trying settings (request 02 n) beside resolving the patches that it draws, and nothing
//! else.

use std::hint::black_box;

use crate::draft::Draft;
use crate::jobs;
use crate::ours::{self, Memory, Opened, timed_ours_drawn, timed_ours_try};
use crate::time::{self, Clock, part};

const SEED: u32 = 7;
const PATCHES: u32 = 1024;
const PRICES: [u32; 4] = [4, 6, 16, 12];
const ROUNDS: usize = 31;

/// "each draw adds 2,654,435,769 to the seed"
const STEP: u32 = 2_654_435_769;

/// Prints the table.
pub fn print() {
    let clock = Clock::new();
    println!(
        "Microseconds of trying both settings with {PATCHES} patches from seed {SEED}, and of resolving the patches that are drawn alone:"
    );
    println!("the median and the least of {ROUNDS} rounds, and the ratio of each.\n");
    println!("| function | drawn | accepted | trying | resolving | ratio |\n|---|---|---|---|---|---|");
    let mut memory = Memory::new();
    for (name, draft) in functions() {
        let row = Row::new(&draft, &mut memory);
        println!("| {name} | {} |", row.time(&clock, &mut memory));
    }
}

/// The functions: of `jobs`' targets, with enough slots for patches of 16 moves.
fn functions() -> Vec<(&'static str, Draft)> {
    let rows = jobs::rows();
    let of = |target: &str, size: &str| {
        let row = rows.iter().find(|r| r.target == target && r.size == size);
        row.expect("there is such a row").jobs[0].clone()
    };
    let mut functions = vec![
        ("small target", of("small", "16 to 128")),
        ("shipped target", of("shipped", "16 to 128")),
        ("512 units", of("512 units", "16 to 128")),
    ];
    // Without values that can be rebuilt, and on places enough, most draws are accepted.
    for (_, draft) in &mut functions {
        draft.slots = 4096;
    }
    functions
}

/// A patch's numbers, drawn.
fn drawn(seed: &mut u32, registers: usize, draft: &Draft) -> Vec<u32> {
    let mut draw = |count: usize| {
        *seed = seed.wrapping_add(STEP);
        (*seed as usize % count) as u32
    };
    let places = registers + draft.slots;
    let code = |place: u32| match (place as usize).checked_sub(registers) {
        None => 2 * place + 1,
        Some(slot) => 2 * slot as u32,
    };
    let mut numbers = Vec::new();
    for _ in 0..=draw(16) {
        let (source, dest) = (code(draw(places)), code(draw(places)));
        numbers.extend([0, source, dest, draw(draft.values.len())]);
    }
    numbers
}

/// A function, and the patches that are drawn at each setting, refused ones among them.
struct Row {
    /// Its target and function.
    bytes: Vec<u8>,
    /// The same, with a patch count behind them.
    job: Vec<u8>,
    drawn: [Vec<Vec<u32>>; 2],
    accepted: u64,
}

impl Row {
    /// Draws the patches, and sees that the counts of trying are those of resolving them.
    fn new(draft: &Draft, memory: &mut Memory) -> Row {
        let bytes = ours::beginning(draft);
        let job = [&bytes[..], &[1]].concat();
        let registers = draft.target.registers.len();
        let mut tallies = [[0; 263]; 2];
        timed_ours_try(&job, PRICES, SEED, PATCHES, &mut tallies, memory);
        let mut all = [Vec::new(), Vec::new()];
        for (index, patches) in all.iter_mut().enumerate() {
            let mut opened = Opened::new(index as u32 + 1, &bytes);
            let mut seed = SEED;
            let mut tally = [0; 263];
            for _ in 0..PATCHES {
                for _ in 0..9 {
                    let numbers = drawn(&mut seed, registers, draft);
                    let outcome = timed_ours_drawn(&mut opened, &numbers, memory);
                    patches.push(numbers);
                    match outcome {
                        Ok(count) => {
                            count_accepted(&mut tally, memory.list(count));
                            break;
                        }
                        Err(refusal) => tally[7 + usize::from(refusal)] += 1,
                    }
                }
            }
            tally[5] = tally[4];
            assert_eq!(tally, tallies[index], "the counts differ");
        }
        Row {
            bytes,
            job,
            drawn: all,
            accepted: tallies[0][0] + tallies[1][0],
        }
    }

    fn time(&self, clock: &Clock, memory: &mut Memory) -> String {
        let (mut trying, mut resolving) = (Vec::new(), Vec::new());
        for round in 0..ROUNDS {
            let taken = if round % 2 == 0 {
                let tried = self.time_trying(clock, memory);
                (tried, self.time_resolving(clock, memory))
            } else {
                let resolved = self.time_resolving(clock, memory);
                (self.time_trying(clock, memory), resolved)
            };
            trying.push(taken.0);
            resolving.push(taken.1);
        }
        let drawn: usize = self.drawn.iter().map(Vec::len).sum();
        let at = |percent| {
            let [trying, resolving] = [&trying, &resolving].map(|n| part(n.clone(), percent));
            (trying / 1000.0, resolving / 1000.0, trying / resolving)
        };
        let (middle, least) = (at(50), at(0));
        format!(
            "{drawn} | {} | {:.0}, {:.0} | {:.0}, {:.0} | {:.2}, {:.2}",
            self.accepted, middle.0, least.0, middle.1, least.1, middle.2, least.2
        )
    }

    /// Nanoseconds of trying both settings.
    fn time_trying(&self, clock: &Clock, memory: &mut Memory) -> f64 {
        let mut tallies = [[0; 263]; 2];
        let from = time::ticks();
        timed_ours_try(&self.job, PRICES, SEED, PATCHES, &mut tallies, memory);
        let ticks = (time::ticks() - from) as f64;
        black_box(tallies);
        clock.ns(ticks)
    }

    /// Nanoseconds of resolving the patches drawn at both; the functions are opened
    /// before.
    fn time_resolving(&self, clock: &Clock, memory: &mut Memory) -> f64 {
        let mut ticks = 0.0;
        for (setting, patches) in (1..).zip(&self.drawn) {
            let mut opened = Opened::new(setting, &self.bytes);
            let from = time::ticks();
            for numbers in patches {
                let _ = black_box(timed_ours_drawn(&mut opened, numbers, memory));
            }
            ticks += (time::ticks() - from) as f64;
        }
        clock.ns(ticks)
    }
}

fn count_accepted(tally: &mut [u64; 263], edits: &[u64]) {
    tally[0] += 1;
    for edit in edits {
        let kind = (edit % 8) as usize;
        tally[kind] += 1;
        tally[6] += u64::from(PRICES[kind - 1]);
    }
}
