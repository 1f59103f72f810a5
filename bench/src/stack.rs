//! How much stack a call takes at most: it is filled with a pattern below the
//! caller, and after the call it is found how far down the pattern is gone.

use std::arch::asm;

use crate::draft::{Draft, Place};
use crate::growth::{Kind, Places, job, patch, target};
use crate::jobs::{self, Row};
use crate::ours::{Job, Memory, timed_ours_job, timed_ours_patch, timed_ours_write};

/// How much is filled, and how near to the caller.
const FILLED: usize = 1 << 20;
const NEAR: usize = 512;
const PATTERN: u64 = 0x5a17_c0de_5a17_c0de;

fn here() -> usize {
    let at: usize;
    // SAFETY: it only reads.
    unsafe { asm!("mov {}, rsp", out(reg) at, options(nomem, nostack, preserves_flags)) };
    at
}

/// Bytes of stack that a call takes, on a thread with far more than that.
#[inline(never)]
fn measure(call: &mut dyn FnMut()) -> usize {
    let top = here();
    let bottom = (top - FILLED) & !7;
    // SAFETY: the thread's stack is mapped whole, and nothing is kept below.
    unsafe {
        let mut at = (top - NEAR) & !7;
        while at > bottom {
            at -= 8;
            (at as *mut u64).write_volatile(PATTERN);
        }
    }
    call();
    // SAFETY: as above.
    unsafe {
        let mut at = bottom;
        while at < top && (at as *const u64).read_volatile() == PATTERN {
            at += 8;
        }
        top - at
    }
}

/// Stack of a whole job, of resolving its patches, and of writing it.
fn of(draft: &Draft) -> [usize; 3] {
    let run = || {
        let mut memory = Memory::new();
        let mut opened = Job::open(draft);
        let bytes = draft.job();
        let mut count = 0;
        let whole = measure(&mut || {
            count = timed_ours_job(bytes.as_ptr(), bytes.len(), &mut memory);
        });
        assert_ne!(count, 0, "the job is refused");
        let mut resolve = 0;
        for patch in 0..draft.patches.len() {
            let took = measure(&mut || {
                timed_ours_patch(&mut opened, &mut memory, patch);
            });
            resolve = resolve.max(took);
        }
        let numbers: Vec<u32> = draft.fields().iter().map(|field| field.number).collect();
        let write = measure(&mut || {
            count = timed_ours_write(numbers.as_ptr(), numbers.len(), &mut memory);
        });
        assert_eq!(memory.written(count), bytes, "other bytes are written");
        [whole, resolve, write]
    };
    std::thread::scope(|scope| {
        std::thread::Builder::new()
            .stack_size(4 * FILLED)
            .spawn_scoped(scope, run)
            .expect("a thread")
            .join()
            .expect("a job that is not refused")
    })
}

pub fn print() {
    println!("Bytes of stack that a call takes, with its arguments.\n");
    println!(
        "| jobs | `parallel_moves_answer` | `parallel_moves_resolve` | `parallel_moves_write` |"
    );
    println!("|---|---|---|---|");
    let mut most = [0; 3];
    let mut line = |name: &str, jobs: &[Draft]| {
        let all: Vec<_> = jobs.iter().map(of).collect();
        let of_kind = |kind: usize| all.iter().map(|taken| taken[kind]).max().unwrap_or(0);
        let [whole, resolve, write] = [0, 1, 2].map(of_kind);
        println!("| {name} | {whole} | {resolve} | {write} |");
        for (most, taken) in most.iter_mut().zip([whole, resolve, write]) {
            *most = taken.max(*most);
        }
    };
    let places: [(&str, Places); 2] = [("registers", Place::Register), ("slots", Place::Slot)];
    for (sort, place) in places {
        for (kind, shape) in [(Kind::Chain, "chain"), (Kind::Rotation, "rotation")] {
            for count in [1, 64, 127, 128] {
                for (free, said) in [(None, "none free"), (Some(130), "one free")] {
                    let patch = patch(kind, count, place, free);
                    let name = format!("{shape} of {count} {sort}, {said}");
                    line(&name, &[job(target(131, 131), 130, 130, patch)]);
                }
            }
        }
    }
    for Row { target, size, jobs } in jobs::rows() {
        line(&format!("{target}, {size} entries"), &jobs);
    }
    println!("| most | {} | {} | {} |", most[0], most[1], most[2]);
}
