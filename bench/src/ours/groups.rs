//! Patches and jobs by groups.

use super::library::{parallel_moves_answer_groups, parallel_moves_resolve_groups};
use super::{Given, Job, KEPT_EVICTIONS, Memory};

/// What only a call by groups works in.
pub struct GroupMemory {
    owners: Vec<u8>,
    labels: Vec<u8>,
    next: Vec<u8>,
    common: Vec<u8>,
    work: Vec<u16>,
    joined: Vec<u64>,
    numbers: Vec<u32>,
}

impl GroupMemory {
    pub fn new() -> Self {
        GroupMemory {
            owners: vec![0xa5; 4608],
            labels: vec![0xa5; 128],
            next: vec![0xa5; 128],
            common: vec![0; 512],
            work: vec![0xa5a5; 65_600],
            joined: vec![0; 1024],
            numbers: vec![0; 512],
        }
    }
}

/// Adds and resolves a patch by groups: how many edits it has.
#[inline(never)]
#[unsafe(no_mangle)]
pub extern "C" fn timed_ours_groups(
    job: &mut Job,
    memory: &mut Memory,
    groups: &mut GroupMemory,
    patch: usize,
) -> usize {
    let Given { free, numbers } = &job.patches[patch];
    let mut refusal = 0;
    let mut position = 0;
    // SAFETY: as in `timed_ours_patch`.
    let count = unsafe {
        parallel_moves_resolve_groups(
            job.tables.target.as_ptr(),
            job.tables.function.as_ptr(),
            free.as_ptr(),
            free.len(),
            numbers.as_ptr(),
            numbers.len(),
            job.tables.cache.as_mut_ptr(),
            memory.list.as_mut_ptr(),
            memory.list.len(),
            &mut refusal,
            &mut position,
            memory.free_units.as_mut_ptr(),
            memory.entries.as_mut_ptr(),
            memory.writers.as_mut_ptr(),
            memory.available.as_mut_ptr(),
            memory.sources.as_mut_ptr(),
            memory.edits.as_mut_ptr(),
            memory.slots.as_mut_ptr(),
            memory.diverted.as_mut_ptr(),
            memory.marks.as_mut_ptr(),
            memory.carried.as_mut_ptr(),
            groups.owners.as_mut_ptr(),
            groups.labels.as_mut_ptr(),
            groups.next.as_mut_ptr(),
            groups.common.as_mut_ptr(),
            groups.work.as_mut_ptr(),
            groups.joined.as_mut_ptr(),
        )
    };
    if refusal == 0 { count } else { usize::MAX }
}

/// Answers a whole job by groups: how many words the answer has.
#[inline(never)]
pub fn timed_ours_groups_answer(
    job: &[u8],
    memory: &mut Memory,
    groups: &mut GroupMemory,
) -> usize {
    let mut refusal = 0;
    // SAFETY: each array is as long as the function says, the flags are 0 or 1.
    let count = unsafe {
        parallel_moves_answer_groups(
            KEPT_EVICTIONS,
            job.as_ptr(),
            job.len(),
            memory.words.as_mut_ptr(),
            memory.words.len(),
            &mut refusal,
            memory.tables.target.as_mut_ptr(),
            memory.tables.function.as_mut_ptr(),
            memory.tables.cache.as_mut_ptr(),
            memory.free_units.as_mut_ptr(),
            memory.entries.as_mut_ptr(),
            memory.writers.as_mut_ptr(),
            memory.available.as_mut_ptr(),
            memory.sources.as_mut_ptr(),
            memory.edits.as_mut_ptr(),
            memory.slots.as_mut_ptr(),
            memory.diverted.as_mut_ptr(),
            memory.marks.as_mut_ptr(),
            memory.carried.as_mut_ptr(),
            groups.owners.as_mut_ptr(),
            groups.labels.as_mut_ptr(),
            groups.next.as_mut_ptr(),
            groups.common.as_mut_ptr(),
            groups.work.as_mut_ptr(),
            groups.joined.as_mut_ptr(),
            groups.numbers.as_mut_ptr(),
        )
    };
    if refusal == 0 { count } else { usize::MAX }
}
