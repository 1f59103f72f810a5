//! What is counted of jobs.

use std::collections::BTreeMap;

use judge::plain::Reached;

use crate::compare::Outcome;
use crate::priced::Priced;

/// What was counted of one setting.
#[derive(Default)]
pub struct Counts {
    pub jobs: u64,
    patches: u64,
    edits: u64,
    /// Jobs by the number that they are refused by, 0 for none.
    by_refusal: BTreeMap<u8, u64>,
    reached: Reached,
    /// By mode: jobs, those that differ from the setting before, and those in which
    /// two are held at once.
    by_mode: BTreeMap<&'static str, [u64; 3]>,
    /// By mode, of jobs with their L planned anew: how many, and the most slots of one
    /// size, of all and sizes that one makes.
    planned: BTreeMap<&'static str, (u64, [usize; 3])>,
    priced: Option<Priced>,
}

/// What the rules say when two are held at once.
const TWO_HELD: (&str, &str) = ("evicted", "beside one that stays held");

impl Counts {
    /// Takes in a job of a mode, which may differ from the setting before.
    pub fn add(&mut self, outcome: &Outcome, mode: &'static str, differs: bool) {
        self.jobs += 1;
        self.patches += outcome.patches;
        self.edits += outcome.edits;
        *self.by_refusal.entry(outcome.refusal).or_default() += 1;
        for (&branch, &count) in &outcome.reached {
            *self.reached.entry(branch).or_default() += count;
        }
        if let Some(slots) = &outcome.slots_by_size {
            let of_a_size = slots.values().copied().max().unwrap_or(0);
            let most = [of_a_size, slots.values().sum(), slots.len()];
            self.add_planned(mode, 1, most);
        }
        self.add_priced(outcome.priced.as_ref());
        let two_held = outcome.reached.contains_key(&TWO_HELD);
        let by_mode = self.by_mode.entry(mode).or_default();
        for (count, holds) in by_mode.iter_mut().zip([true, differs, two_held]) {
            *count += u64::from(holds);
        }
    }

    fn add_planned(&mut self, mode: &'static str, jobs: u64, most: [usize; 3]) {
        let planned = self.planned.entry(mode).or_default();
        planned.0 += jobs;
        for (known, count) in planned.1.iter_mut().zip(most) {
            *known = count.max(*known);
        }
    }

    fn add_priced(&mut self, priced: Option<&Priced>) {
        if let Some(priced) = priced {
            self.priced.get_or_insert_default().add_all(priced);
        }
    }

    pub fn add_all(&mut self, other: &Counts) {
        self.add_priced(other.priced.as_ref());
        self.jobs += other.jobs;
        self.patches += other.patches;
        self.edits += other.edits;
        for (&refusal, &count) in &other.by_refusal {
            *self.by_refusal.entry(refusal).or_default() += count;
        }
        for (&branch, &count) in &other.reached {
            *self.reached.entry(branch).or_default() += count;
        }
        for (&mode, counts) in &other.by_mode {
            let by_mode = self.by_mode.entry(mode).or_default();
            by_mode.iter_mut().zip(counts).for_each(|(a, b)| *a += b);
        }
        for (&mode, &(jobs, most)) in &other.planned {
            self.add_planned(mode, jobs, most);
        }
    }

    /// Of jobs that were written again.
    pub fn print_rewritten(&self) {
        println!("jobs {}", self.jobs);
        for (refusal, count) in &self.by_refusal {
            match refusal {
                0 => println!("  written: {count}"),
                _ => println!("  refused no. {refusal}: {count}"),
            }
        }
        println!("patches written {}", self.patches);
        println!("entries written {}", self.edits);
        println!("jobs by mode");
        for (mode, [jobs, ..]) in &self.by_mode {
            println!("  {mode}: {jobs}");
        }
    }

    pub fn print(&self) {
        println!("jobs {}", self.jobs);
        for (refusal, count) in &self.by_refusal {
            match refusal {
                0 => println!("  accepted: {count}"),
                _ => println!("  refused no. {refusal}: {count}"),
            }
        }
        println!("accepted patches {}", self.patches);
        println!("edits {}", self.edits);
        if let Some(Priced {
            edges,
            refused: [outside, none],
            most,
            chosen: [first, second, neither],
            ties,
        }) = self.priced
        {
            println!("prices asked for and given {edges}, the greatest product {most}");
            println!("  refused no. 19: {outside}");
            println!("  refused no. 2: {none}");
            println!(
                "the first of two lists chosen {first}, the second {second}, both alike {ties}"
            );
            println!("  refused no. 19: {neither}");
        }
        if !self.planned.is_empty() {
            println!(
                "jobs by mode with their L planned anew; the most slots made of one size, in all, sizes"
            );
        }
        for (mode, (jobs, [of_a_size, all, sizes])) in &self.planned {
            println!("  {mode}: {jobs}; {of_a_size}, {all}, {sizes}");
        }
        if self.reached.is_empty() {
            return;
        }
        println!("branches of the rule for kept evictions");
        for ((what, which), count) in &self.reached {
            println!("  {what}, {which}: {count}");
        }
        println!("jobs by mode, with other answers than at setting 1, holding two at once");
        for (mode, [jobs, differ, two_held]) in &self.by_mode {
            println!("  {mode}: {jobs}, {differ}, {two_held}");
        }
    }
}
