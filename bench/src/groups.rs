//! A patch of 128 entries in 64 groups, and a whole job of such patches: by groups beside whole.

use std::hint::black_box;

use crate::draft::{Draft, Entry, Patch, Place};
use crate::growth::{self, Kind};
use crate::ours::{
    GroupMemory, Job, Memory, timed_ours_groups, timed_ours_groups_answer, timed_ours_job,
    timed_ours_patch,
};
use crate::time::{self, Clock, median, part};

/// So many medians are made of each patch, each of so many calls of both, in turn.
const REPETITIONS: usize = 15;
const ROUNDS: usize = 401;
const GROUPS: usize = 64;
/// So many patches has a whole job.
const PATCHES: usize = 12;
/// By groups takes at most so many times as long as whole.
const GOAL: f64 = 2.0;

pub fn print() {
    let clock = Clock::new();
    println!(
        "Nanoseconds of ours, whole and by {GROUPS} groups of two entries, medians of {REPETITIONS} repetitions; the ratio with its least and greatest (goal: at most {GOAL}).\n"
    );
    println!("| patch | whole | by groups | ratio | from | to |\n|---|---|---|---|---|---|");
    for (name, draft) in [
        ("swaps of registers, none free", swaps()),
        ("chains of two moves, none free", chains()),
    ] {
        print_row(name, &calls(&clock, &draft));
        print_row(
            &format!("a job of {PATCHES} such patches"),
            &jobs(&clock, &draft),
        );
    }
}

/// What each repetition took whole, and by groups.
fn print_row(name: &str, taken: &[(f64, f64)]) {
    let ratios = || taken.iter().map(|(whole, groups)| groups / whole).collect();
    println!(
        "| {name} | {:.0} | {:.0} | {:.2} | {:.2} | {:.2} |",
        median(taken.iter().map(|taken| taken.0).collect()),
        median(taken.iter().map(|taken| taken.1).collect()),
        median(ratios()),
        part(ratios(), 0),
        part(ratios(), 100)
    );
}

fn swaps() -> Draft {
    growth::entries_job(Kind::Swaps, 2 * GROUPS, Place::Register, None)
}

/// The second move of each chain first.
fn chains() -> Draft {
    let entries = (0..GROUPS).flat_map(|group| {
        [1, 0].map(|index| Entry {
            source: Some(Place::Register(3 * group + index)),
            dest: Place::Register(3 * group + index + 1),
            value: 2 * group + index,
        })
    });
    let patch = Patch {
        free: Vec::new(),
        entries: entries.collect(),
    };
    growth::job(growth::target(3 * GROUPS, 3 * GROUPS), 130, 130, patch)
}

/// What a repetition took whole, and by groups.
fn calls(clock: &Clock, draft: &Draft) -> Vec<(f64, f64)> {
    let (mut memory, mut groups) = (Memory::new(), GroupMemory::new());
    let (mut whole, mut parted) = (Job::open(draft), Job::open(draft));
    let edits = timed_ours_patch(&mut whole, &mut memory, 0);
    let joined = timed_ours_groups(&mut parted, &mut memory, &mut groups, 0);
    assert!(edits <= 1024 && joined <= 1024, "the patch is refused");
    repetitions(clock, ROUNDS, |by_groups| match by_groups {
        false => timed_ours_patch(&mut whole, &mut memory, 0),
        true => timed_ours_groups(&mut parted, &mut memory, &mut groups, 0),
    })
}

/// The same of a whole job of such patches.
fn jobs(clock: &Clock, draft: &Draft) -> Vec<(f64, f64)> {
    let (mut memory, mut groups) = (Memory::new(), GroupMemory::new());
    let mut draft = draft.clone();
    draft.patches = vec![draft.patches[0].clone(); PATCHES];
    let bytes = draft.job();
    let words = timed_ours_job(bytes.as_ptr(), bytes.len(), &mut memory);
    let joined = timed_ours_groups_answer(&bytes, &mut memory, &mut groups);
    assert!(
        words > PATCHES && joined > PATCHES && joined != usize::MAX,
        "the job is refused"
    );
    repetitions(clock, ROUNDS / 4, |by_groups| match by_groups {
        false => timed_ours_job(bytes.as_ptr(), bytes.len(), &mut memory),
        true => timed_ours_groups_answer(&bytes, &mut memory, &mut groups),
    })
}

/// Medians of so many rounds, each of both in turn.
fn repetitions(
    clock: &Clock,
    rounds: usize,
    mut timed: impl FnMut(bool) -> usize,
) -> Vec<(f64, f64)> {
    let mut repetition = || {
        let (mut whole_ticks, mut parted_ticks) = (Vec::new(), Vec::new());
        for _ in 0..rounds {
            let from = time::ticks();
            black_box(timed(false));
            let between = time::ticks();
            black_box(timed(true));
            parted_ticks.push((time::ticks() - between) as f64);
            whole_ticks.push((between - from) as f64);
        }
        (
            clock.ns(median(whole_ticks)),
            clock.ns(median(parted_ticks)),
        )
    };
    (0..REPETITIONS).map(|_| repetition()).collect()
}
