//! Examining our own lists (request 02 m) beside resolving their patches.

use std::hint::black_box;

use crate::draft::{Draft, Patch, Place};
use crate::growth::{self, Kind};
use crate::jobs;
use crate::ours::{Job, Memory, timed_ours_examine, timed_ours_job, timed_ours_patch};
use crate::time::{self, Clock, median};

const ROUNDS: usize = 401;

/// The lists are at least so long.
const FEWEST_EDITS: usize = 100;

/// Prints the table.
pub fn print() {
    let clock = Clock::new();
    println!(
        "Nanoseconds of examining our own list of {FEWEST_EDITS} edits or more, and of resolving its patch, medians of {ROUNDS} rounds."
    );
    println!(
        "Examining begins with a job's bytes: what it takes to read the target and the function is"
    );
    println!(
        "measured on the same job with an empty patch, and subtracted in the first ratio, in which"
    );
    println!(
        "examining reads the patch's bytes and resolving is given its numbers; in the second both"
    );
    println!("sides read the whole job.\n");
    println!(
        "| patch | entries | edits | resolving | reading | examining, reading included | ratio without reading | answering the job | ratio with reading |\n|---|---|---|---|---|---|---|---|---|"
    );
    let mut memory = Memory::new();
    let mut above = Vec::new();
    for (name, draft) in patches(&mut memory) {
        let mut row = Row::new(&draft, &mut memory);
        if row.list.len() < FEWEST_EDITS {
            continue;
        }
        let [resolving, reading, examining, answering] = row.time(&clock, &mut memory);
        let ratio = (examining - reading) / resolving;
        println!(
            "| {name} | {} | {} | {resolving:.0} | {reading:.0} | {examining:.0} | {ratio:.2} | {answering:.0} | {:.2} |",
            draft.patches[0].entries.len(),
            row.list.len(),
            examining / answering
        );
        if ratio > 2.0 {
            above.push(format!("{name} ({ratio:.2})"));
        }
    }
    match above.len() {
        0 => println!("\nNone takes more than twice the time of resolving."),
        _ => println!("\nAbove 2: {}.", above.join(", ")),
    }
}

/// Patches of many edits.
fn patches(memory: &mut Memory) -> Vec<(String, Draft)> {
    let register: growth::Places = Place::Register;
    let slot: growth::Places = Place::Slot;
    let shapes = [
        ("chain of registers", Kind::Chain, register, None),
        (
            "rotation of registers, one free",
            Kind::Rotation,
            register,
            Some(130),
        ),
        ("swaps of registers, none free", Kind::Swaps, register, None),
        ("registers rebuilt", Kind::Remats, register, None),
        ("chain of slots", Kind::Chain, slot, Some(130)),
        ("rotation of slots, none free", Kind::Rotation, slot, None),
    ];
    let of_shape = |(name, kind, place, free): (&str, Kind, growth::Places, Option<usize>)| {
        (
            name.to_string(),
            growth::entries_job(kind, 128, place, free),
        )
    };
    let mut patches: Vec<(String, Draft)> = shapes.into_iter().map(of_shape).collect();
    for row in jobs::rows() {
        if row.size == "16 to 128" {
            let name = format!("mixed, {}", row.target);
            patches.extend(longest(&row, memory).map(|draft| (name, draft)));
        }
    }
    patches
}

/// Of a row's patches, each alone in its job, the one of most entries that has a start: where
/// two values of other widths are to lie in one slot there is none, and no list is wrong.
fn longest(row: &jobs::Row, memory: &mut Memory) -> Option<Draft> {
    let all = row.jobs.iter().flat_map(|job| {
        let patches = job.patches.iter();
        patches.map(move |patch| with_patch(job, patch.clone()))
    });
    let mut started = |draft: &Draft| timed_ours_examine(&draft.job(), &[], memory) == Ok(false);
    all.filter(|draft| started(draft))
        .max_by_key(|draft| draft.patches[0].entries.len())
}

fn with_patch(job: &Draft, patch: Patch) -> Draft {
    Draft {
        patches: vec![patch],
        ..job.clone()
    }
}

/// A patch alone in its job, with our list.
struct Row {
    job: Job,
    empty: Vec<u8>,
    list: Vec<u64>,
}

impl Row {
    fn new(draft: &Draft, memory: &mut Memory) -> Row {
        let mut job = Job::open(draft);
        let count = timed_ours_patch(&mut job, memory, 0);
        assert_ne!(count, usize::MAX, "the patch is refused");
        let list = memory.list(count).to_vec();
        let empty = with_patch(draft, Patch::default()).job();
        assert_eq!(timed_ours_examine(&job.bytes, &list, memory), Ok(true));
        assert_eq!(timed_ours_examine(&job.bytes, &[], memory), Ok(false));
        assert_eq!(timed_ours_examine(&empty, &[0], memory), Err(24));
        Row { job, empty, list }
    }

    /// Nanoseconds of resolving, of reading, of examining and of answering, in turn.
    fn time(&mut self, clock: &Clock, memory: &mut Memory) -> [f64; 4] {
        let mut ticks = [const { Vec::new() }; 4];
        for round in 0..ROUNDS {
            for turn in 0..4 {
                let side = (round + turn) % 4;
                let from = time::ticks();
                match side {
                    0 => drop(black_box(timed_ours_patch(&mut self.job, memory, 0))),
                    // No word 0 is an edit: the list is refused once the patch is read.
                    1 => drop(black_box(timed_ours_examine(&self.empty, &[0], memory))),
                    2 => drop(black_box(timed_ours_examine(
                        &self.job.bytes,
                        &self.list,
                        memory,
                    ))),
                    _ => {
                        let bytes = &self.job.bytes;
                        black_box(timed_ours_job(bytes.as_ptr(), bytes.len(), memory));
                    }
                }
                ticks[side].push((time::ticks() - from) as f64);
            }
        }
        ticks.map(|ticks| clock.ns(median(ticks)))
    }
}
