//! The tables of writing: a job written from its numbers, beside the same job read.

use std::hint::black_box;

use crate::draft::{self, COST_NONE, Draft, Entry, Patch, Place, Register, Value};
use crate::jobs::{self, with_classes};
use crate::ours::{Memory, timed_ours_job, timed_ours_write};
use crate::time::{self, Clock, median};

const ROUNDS: usize = 51;

/// A job as bytes and as numbers.
struct Job {
    bytes: Vec<u8>,
    numbers: Vec<u32>,
}

impl Job {
    fn new(draft: &Draft) -> Self {
        let fields = draft.fields();
        Job {
            bytes: draft::write(&fields),
            numbers: fields.iter().map(|field| field.number).collect(),
        }
    }

    fn read(&self, memory: &mut Memory) -> usize {
        timed_ours_job(self.bytes.as_ptr(), self.bytes.len(), memory)
    }

    fn write(&self, memory: &mut Memory) -> usize {
        timed_ours_write(self.numbers.as_ptr(), self.numbers.len(), memory)
    }
}

/// Nanoseconds of reading and of writing each job, in turn.
fn time(clock: &Clock, jobs: &[Job], memory: &mut Memory) -> Vec<[f64; 2]> {
    for job in jobs {
        assert_ne!(job.read(memory), 0, "the job is refused");
        let count = job.write(memory);
        assert_eq!(memory.written(count), job.bytes, "other bytes are written");
    }
    let mut ticks = vec![[const { Vec::new() }; 2]; jobs.len()];
    for round in 0..ROUNDS {
        for (job, ticks) in jobs.iter().zip(&mut ticks) {
            // Each is first in every other round.
            for side in [round % 2, 1 - round % 2] {
                let from = time::ticks();
                black_box(match side {
                    0 => job.read(memory),
                    _ => job.write(memory),
                });
                ticks[side].push((time::ticks() - from) as f64);
            }
        }
    }
    let ns = |ticks: Vec<f64>| clock.ns(median(ticks));
    ticks.into_iter().map(|ticks| ticks.map(ns)).collect()
}

fn row(name: &str, clock: &Clock, jobs: &[Job], memory: &mut Memory) {
    let taken = time(clock, jobs, memory);
    let [reading, writing] = [0, 1].map(|side| median(taken.iter().map(|t| t[side]).collect()));
    let bytes = median(jobs.iter().map(|job| job.bytes.len() as f64).collect());
    let ratio = median(
        taken
            .iter()
            .map(|[reading, writing]| writing / reading)
            .collect(),
    );
    println!("| {name} | {bytes:.0} | {reading:.0} | {writing:.0} | {ratio:.2} |");
}

/// A job with other patches.
fn with_patches(draft: &Draft, patches: Vec<Patch>) -> Draft {
    Draft {
        patches,
        ..draft.clone()
    }
}

/// Moves that are the same, of which one is kept, or rebuilds without scratch of all.
fn long_patches(remat: bool) -> Draft {
    let register = |unit| Register {
        memory: false,
        bank: 0,
        units: vec![unit],
    };
    let entry = |index| match remat {
        true => Entry {
            source: None,
            dest: Place::Register(index),
            value: 0,
        },
        false => Entry {
            source: Some(Place::Register(0)),
            dest: Place::Register(1),
            value: 0,
        },
    };
    let patch = Patch {
        free: Vec::new(),
        entries: (0..128).map(entry).collect(),
    };
    Draft {
        target: with_classes(128, (0..128).map(register).collect(), 1),
        values: vec![Value {
            bank: 0,
            cost: if remat { 2 } else { COST_NONE },
            class: 0,
        }],
        slots: 0,
        emergency_limit: 0,
        patches: vec![patch; 120],
    }
}

pub fn print() {
    let clock = Clock::new();
    let mut memory = Memory::new();
    println!(
        "Nanoseconds of reading and of writing a whole job, medians. What is read is also resolved,"
    );
    println!(
        "but there is next to nothing to resolve: no entry, or one edit for an entry at most.\n"
    );
    println!("| job | bytes | reading | writing | ratio |\n|---|---|---|---|---|");
    let rows = jobs::rows();
    for row_of in rows.iter().step_by(3) {
        let empty = |draft| Job::new(&with_patches(draft, vec![Patch::default()]));
        let jobs: Vec<Job> = row_of.jobs.iter().map(empty).collect();
        let name = format!("{}, no entry", row_of.target);
        row(&name, &clock, &jobs, &mut memory);
    }
    for (name, remat) in [
        ("120 patches of one move 128 times", false),
        ("120 patches of 128 rebuilds", true),
    ] {
        let jobs = [Job::new(&long_patches(remat))];
        row(name, &clock, &jobs, &mut memory);
    }
    println!("\nThe same of jobs with 12 patches that are read and resolved.\n");
    println!("| job | bytes | reading and resolving | writing | ratio |\n|---|---|---|---|---|");
    for row_of in &rows {
        let jobs: Vec<Job> = row_of.jobs.iter().map(Job::new).collect();
        let name = format!("{}, {} entries", row_of.target, row_of.size);
        row(&name, &clock, &jobs, &mut memory);
    }
}
