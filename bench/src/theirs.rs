//! The original, with compare's reader and tests before it.

use original::internal::parallel_moves::{Edit, ParallelMoves};
use original::output::{Allocation, AllocationKind, SpillSlot};
use original::reginfo::{RegUnit, RegUnitSet};

use crate::draft::Draft;
use crate::number::{Reader, Refused};
use crate::ours;
use crate::patch::{Entry, Patch};
use crate::target::Target;
use crate::values::Values;

/// What is used again for each call.
pub struct Memory {
    moves: ParallelMoves,
    list: Vec<Edit>,
    words: Vec<u64>,
}

impl Memory {
    pub fn new() -> Self {
        Memory {
            moves: ParallelMoves::new(),
            list: Vec::with_capacity(1024),
            words: Vec::with_capacity(2 * 65_536),
        }
    }

    /// The words of the last job's answer.
    pub fn words(&self) -> &[u64] {
        &self.words
    }

    /// The words of the last patch's edits.
    pub fn list(&self) -> Vec<u64> {
        self.list.iter().copied().map(word).collect()
    }
}

/// A job opened, with its patches.
pub struct Job {
    target: Target,
    values: Values,
    patches: Vec<Patch>,
    /// The free units of each, as ours is given them.
    free: Vec<Vec<u32>>,
    /// Of this function only, as it keeps the emergency slots.
    moves: ParallelMoves,
    made: usize,
}

impl Job {
    pub fn open(draft: &Draft) -> Result<Self, Refused> {
        let bytes = draft.job();
        let mut reader = Reader::new(&bytes);
        let target = Target::read(&mut reader)?;
        let values = Values::read(&mut reader, &target)?;
        let count = reader.within(1, 1024)?;
        let patches = (0..count)
            .map(|_| Patch::read(&mut reader, &target, &values))
            .collect::<Result<_, _>>()?;
        let mut moves = ParallelMoves::new();
        moves.prepare(&values, values.slots + values.emergency_limit);
        Ok(Job {
            target,
            values,
            patches,
            free: draft.patches.iter().map(ours::free).collect(),
            moves,
            made: 0,
        })
    }
}

#[inline(always)]
fn add(moves: &mut ParallelMoves, target: &Target, values: &Values, patch: &Patch) {
    moves.new_parallel_move();
    for &entry in &patch.entries {
        match entry {
            Entry::Move {
                source,
                dest,
                value,
            } => moves.add_move(source, dest, value, values, target),
            Entry::Remat { dest, value } => moves.add_remat(dest, value, values, target),
        }
    }
}

/// Whether not too many slots were made.
#[inline(always)]
fn resolve(
    moves: &mut ParallelMoves,
    target: &Target,
    values: &Values,
    free: &RegUnitSet,
    made: &mut usize,
) -> bool {
    moves.resolve(
        target,
        values,
        |unit| free.contains(unit),
        |_size| {
            let slot = SpillSlot::new(values.slots + *made);
            *made += 1;
            slot
        },
    );
    *made <= values.emergency_limit
}

/// Makes the set of a patch's free units, adds and resolves it: how many edits
/// it has.
#[inline(never)]
#[unsafe(no_mangle)]
pub extern "C" fn timed_original_patch(job: &mut Job, memory: &mut Memory, patch: usize) -> usize {
    let mut free = RegUnitSet::new();
    for &unit in &job.free[patch] {
        free.insert(RegUnit::new(unit as usize));
    }
    add(
        &mut job.moves,
        &job.target,
        &job.values,
        &job.patches[patch],
    );
    if !resolve(
        &mut job.moves,
        &job.target,
        &job.values,
        &free,
        &mut job.made,
    ) {
        return usize::MAX;
    }
    memory.list.clear();
    memory.list.extend(job.moves.edits());
    memory.list.len()
}

/// Answers a whole job: how many words there are; none if it is refused.
#[inline(never)]
#[unsafe(no_mangle)]
pub extern "C" fn timed_original_job(bytes: *const u8, len: usize, memory: &mut Memory) -> usize {
    // SAFETY: they are a slice's.
    let bytes = unsafe { std::slice::from_raw_parts(bytes, len) };
    match answer(bytes, memory) {
        Ok(()) => memory.words.len(),
        Err(_) => 0,
    }
}

fn answer(bytes: &[u8], memory: &mut Memory) -> Result<(), Refused> {
    memory.words.clear();
    if bytes.len() > 65_536 {
        return Err(Refused(2));
    }
    let mut reader = Reader::new(bytes);
    let target = Target::read(&mut reader)?;
    let values = Values::read(&mut reader, &target)?;
    memory
        .moves
        .prepare(&values, values.slots + values.emergency_limit);
    let mut made = 0;
    for _ in 0..reader.within(1, 1024)? {
        let patch = Patch::read(&mut reader, &target, &values)?;
        add(&mut memory.moves, &target, &values, &patch);
        if !resolve(&mut memory.moves, &target, &values, &patch.free, &mut made) {
            return Err(Refused(17));
        }
        let head = memory.words.len();
        memory.words.push(0);
        memory.words.extend(memory.moves.edits().map(word));
        let count = memory.words.len() - head - 1;
        memory.words[head] = ((made * 65_536 + count) * 8) as u64;
    }
    if reader.at_end() {
        Ok(())
    } else {
        Err(Refused(8))
    }
}

fn code(place: Allocation) -> u64 {
    match place.kind() {
        AllocationKind::PhysReg(reg) => 2 * reg.index() as u64 + 1,
        AllocationKind::SpillSlot(slot) => 2 * slot.index() as u64,
    }
}

/// An edit as a packed word.
fn word(edit: Edit) -> u64 {
    let (kind, to, from, value) = match edit {
        Edit::Move { to, from, value } => (1, code(to), code(from), value.index()),
        Edit::Rematerialize { to, value } => (2, code(to), 0, value.index()),
        Edit::EmergencySpill { to, from } => {
            (3, 2 * to.index() as u64, 2 * from.index() as u64 + 1, 0)
        }
        Edit::EmergencyReload { to, from } => {
            (4, 2 * to.index() as u64 + 1, 2 * from.index() as u64, 0)
        }
        Edit::IndirectRematerialize { .. } => unreachable!("the module never emits it"),
    };
    ((value as u64 * 16_384 + from) * 16_384 + to) * 8 + kind
}
