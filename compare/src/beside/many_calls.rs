//! Many calls compared, by several threads, and what is counted of them.

use std::collections::BTreeMap;
use std::error::Error;
use std::process::ExitCode;
use std::sync::Mutex;
use std::sync::atomic::{AtomicUsize, Ordering};
use std::thread;
use std::time::Instant;

use judge::generate;
use judge::generate::calls::Session;
use judge::random::Random;

use crate::options::Options;
use crate::ours::Ours;
use crate::{Ended, STACK, calls};

/// How many calls are made in one part.
const CALLS: usize = 5000;

/// Compares calls, and prints counts or the first difference.
pub fn compare_calls(seed: &str, count: &str, options: &[&str]) -> Ended {
    let seed = seed.parse().map_err(|_| "SEED is not a number")?;
    let count: usize = count.parse().map_err(|_| "COUNT is not a number")?;
    let options = Options::read(options)?;
    let mut seeds = Random::new(seed);
    let seeds: Vec<u64> = (0..count.div_ceil(CALLS)).map(|_| seeds.next()).collect();
    let next = AtomicUsize::new(0);
    let found: Mutex<Option<(usize, Session)>> = Mutex::new(None);

    let take_part = || -> Result<CallCounts, String> {
        let mut ours = Ours::new();
        let mut counts = CallCounts::default();
        loop {
            let part = next.fetch_add(1, Ordering::SeqCst);
            let Some(&seed) = seeds.get(part) else {
                return Ok(counts);
            };
            let mut random = Random::new(seed);
            let mut left = CALLS.min(count - part * CALLS);
            while left > 0 {
                let session = generate::calls::session(&mut random, left, &options.settings);
                left -= session.count();
                match calls::compare(&mut ours, &session) {
                    Ok(outcome) => counts.add(&outcome),
                    Err(_) => {
                        // Parts after it need not be done, those before it are.
                        next.fetch_max(seeds.len(), Ordering::SeqCst);
                        let mut first = found.lock().map_err(|_| "a thread failed")?;
                        if first.as_ref().is_none_or(|first| part < first.0) {
                            *first = Some((part, session));
                        }
                        return Ok(counts);
                    }
                }
            }
            if !ours.kept_to_its_own() {
                return Err(format!(
                    "ours wrote past the end of its memory in part {part}"
                ));
            }
        }
    };
    let start = Instant::now();
    let mut counts = CallCounts::default();
    thread::scope(|scope| -> Result<(), Box<dyn Error>> {
        let mut threads = Vec::new();
        for _ in 0..options.threads {
            let builder = thread::Builder::new().stack_size(STACK);
            threads.push(builder.spawn_scoped(scope, take_part)?);
        }
        for thread in threads {
            counts.add_all(&thread.join().map_err(|_| "a thread panicked")??);
        }
        Ok(())
    })?;
    eprintln!("{:.0} seconds", start.elapsed().as_secs_f64());

    let Some((_, session)) = found.into_inner().map_err(|_| "a thread failed")? else {
        counts.print();
        if counts.all() != count as u64 {
            return Err(format!("{} calls of {count}", counts.all()).into());
        }
        println!("no difference");
        return Ok(ExitCode::SUCCESS);
    };
    println!("DIFFERENCE");
    let mut ours = Ours::new();
    let small = calls::reduce(&mut ours, session);
    print!("calls, the last of which differs:\n{}", calls::text(&small));
    match calls::compare(&mut ours, &small) {
        Ok(_) => println!("they differ no longer"),
        Err(difference) => println!("what differs: {}", difference.what),
    }
    Ok(ExitCode::FAILURE)
}

/// What was counted of calls.
#[derive(Default)]
struct CallCounts {
    /// By the number that they are refused by, 0 for none.
    opened: BTreeMap<u8, u64>,
    resolved: BTreeMap<u8, u64>,
    edits: u64,
}

impl CallCounts {
    fn add(&mut self, outcome: &calls::Outcome) {
        for &refusal in &outcome.opened {
            *self.opened.entry(refusal).or_default() += 1;
        }
        for &refusal in &outcome.resolved {
            *self.resolved.entry(refusal).or_default() += 1;
        }
        self.edits += outcome.edits;
    }

    fn add_all(&mut self, other: &CallCounts) {
        let pairs = [
            (&mut self.opened, &other.opened),
            (&mut self.resolved, &other.resolved),
        ];
        for (counts, others) in pairs {
            for (&refusal, &count) in others {
                *counts.entry(refusal).or_default() += count;
            }
        }
        self.edits += other.edits;
    }

    fn all(&self) -> u64 {
        self.opened.values().chain(self.resolved.values()).sum()
    }

    fn print(&self) {
        let accepted = |counts: &BTreeMap<u8, u64>| counts.get(&0).copied().unwrap_or(0);
        let refused = self.all() - accepted(&self.opened) - accepted(&self.resolved);
        println!("calls {}, {refused} of them refused", self.all());
        for (what, counts) in [("functions", &self.opened), ("patches", &self.resolved)] {
            println!("{what} {}", counts.values().sum::<u64>());
            for (refusal, count) in counts {
                match refusal {
                    0 => println!("  accepted: {count}"),
                    _ => println!("  refused no. {refusal}: {count}"),
                }
            }
        }
        println!("edits {}", self.edits);
    }
}
