//! Ours: the static library, with the memory that it is lent.

mod groups;
mod library;

use crate::draft::{self, Draft, Patch, Place};
use library::{
    parallel_moves_answer, parallel_moves_examine, parallel_moves_open, parallel_moves_resolve,
    parallel_moves_try, parallel_moves_write,
};

pub use groups::{GroupMemory, timed_ours_groups, timed_ours_groups_answer};

/// The original keeps one eviction.
const KEPT_EVICTIONS: u32 = 1;

/// The bytes of the longest job.
const MOST_BYTES: usize = 65_536;

/// The words of the longest answer.
const MOST_WORDS: usize = 2 * 65_536 + 1024;

/// What is kept from patch to patch of a function.
struct Tables {
    target: Vec<u16>,
    function: Vec<u16>,
    cache: Vec<u16>,
}

impl Tables {
    fn new() -> Self {
        Tables {
            target: vec![0xa5a5; 107_520],
            function: vec![0xa5a5; 16_388],
            cache: vec![0xa5a5; 65_600],
        }
    }
}

/// Working memory: what it holds does not matter.
pub struct Memory {
    tables: Tables,
    words: Vec<u64>,
    list: Vec<u64>,
    free_units: Vec<u8>,
    entries: Vec<u16>,
    writers: Vec<u16>,
    available: Vec<u8>,
    sources: Vec<u8>,
    edits: Vec<u64>,
    slots: Vec<u16>,
    diverted: Vec<u16>,
    marks: Vec<u8>,
    carried: Vec<u16>,
    written: Vec<u8>,
    work: Vec<u8>,
    ties: Vec<u16>,
    cells: Vec<u16>,
    start: Vec<u16>,
    held: Vec<u16>,
    asked: Vec<u16>,
}

impl Memory {
    pub fn new() -> Self {
        Memory {
            tables: Tables::new(),
            words: vec![0; MOST_WORDS],
            list: vec![0; 1024],
            free_units: vec![0; 512],
            entries: vec![0xa5a5; 1541],
            writers: vec![0xa5a5; 6657],
            available: vec![0; 512],
            sources: vec![0; 512],
            edits: vec![0; 1025],
            slots: vec![0xa5a5; 32_835],
            diverted: vec![0xa5a5; 12_288],
            marks: vec![0xa5; 129],
            carried: vec![0xa5a5; 2049],
            written: vec![0; MOST_BYTES],
            work: vec![0; MOST_BYTES],
            ties: vec![0xa5a5; 12_416],
            cells: vec![0xa5a5; 67_072],
            start: vec![0xa5a5; 67_072],
            held: vec![0xa5a5; 10],
            asked: vec![0xa5a5; 10],
        }
    }

    /// The first bytes of the job that was written last.
    pub fn written(&self, count: usize) -> &[u8] {
        &self.written[..count]
    }

    /// The first words of the last job's answer.
    pub fn words(&self, count: usize) -> &[u64] {
        &self.words[..count]
    }

    /// The first edits of the last patch.
    pub fn list(&self, count: usize) -> &[u64] {
        &self.list[..count]
    }
}

/// A patch as ours is given it.
struct Given {
    free: Vec<u32>,
    numbers: Vec<u32>,
}

impl Given {
    fn new(patch: &Patch) -> Self {
        let code = |place| match place {
            Place::Slot(slot) => 2 * slot as u32,
            Place::Register(reg) => 2 * reg as u32 + 1,
        };
        let mut numbers = Vec::new();
        for entry in &patch.entries {
            let (dest, value) = (code(entry.dest), entry.value as u32);
            numbers.extend(match entry.source {
                Some(source) => [0, code(source), dest, value],
                None => [1, dest, value, 0],
            });
        }
        Given {
            free: free(patch),
            numbers,
        }
    }
}

/// A patch's free units as numbers.
pub fn free(patch: &Patch) -> Vec<u32> {
    patch.free.iter().map(|&unit| unit as u32).collect()
}

/// The bytes of a target and a function: a job without patch count and patches.
pub fn beginning(draft: &Draft) -> Vec<u8> {
    let empty = Draft {
        patches: Vec::new(),
        ..draft.clone()
    };
    let mut fields = empty.fields();
    fields.pop();
    draft::write(&fields)
}

/// A job opened, with its patches.
pub struct Job {
    pub bytes: Vec<u8>,
    tables: Tables,
    patches: Vec<Given>,
}

impl Job {
    pub fn open(draft: &Draft) -> Self {
        let beginning = beginning(draft);
        let mut tables = Tables::new();
        // SAFETY: each array is as long as the function says.
        let refusal = unsafe {
            parallel_moves_open(
                KEPT_EVICTIONS,
                beginning.as_ptr(),
                beginning.len(),
                tables.target.as_mut_ptr(),
                tables.function.as_mut_ptr(),
                tables.cache.as_mut_ptr(),
            )
        };
        assert_eq!(refusal, 0, "ours refuses the target or the function");
        Job {
            bytes: draft.job(),
            tables,
            patches: draft.patches.iter().map(Given::new).collect(),
        }
    }
}

/// Adds and resolves a patch: how many edits it has.
#[inline(never)]
#[unsafe(no_mangle)]
pub extern "C" fn timed_ours_patch(job: &mut Job, memory: &mut Memory, patch: usize) -> usize {
    let Given { free, numbers } = &job.patches[patch];
    let mut refusal = 0;
    let mut position = 0;
    // SAFETY: the tables are as `parallel_moves_open` and the last call left
    // them, each array is as long as the function says, the flags are 0 or 1.
    let count = unsafe {
        parallel_moves_resolve(
            job.tables.target.as_ptr(),
            job.tables.function.as_ptr(),
            free.as_ptr(),
            free.len(),
            numbers.as_ptr(),
            numbers.len(),
            job.tables.cache.as_mut_ptr(),
            memory.list.as_mut_ptr(),
            memory.list.len(),
            &mut refusal,
            &mut position,
            memory.entries.as_mut_ptr(),
            memory.writers.as_mut_ptr(),
            memory.available.as_mut_ptr(),
            memory.sources.as_mut_ptr(),
            memory.edits.as_mut_ptr(),
            memory.slots.as_mut_ptr(),
            memory.diverted.as_mut_ptr(),
            memory.marks.as_mut_ptr(),
            memory.carried.as_mut_ptr(),
        )
    };
    if refusal == 0 { count } else { usize::MAX }
}

/// A function opened at a setting.
pub struct Opened(Tables);

impl Opened {
    pub fn new(kept_evictions: u32, beginning: &[u8]) -> Self {
        let mut tables = Tables::new();
        // SAFETY: each array is as long as the function says.
        let refusal = unsafe {
            parallel_moves_open(
                kept_evictions,
                beginning.as_ptr(),
                beginning.len(),
                tables.target.as_mut_ptr(),
                tables.function.as_mut_ptr(),
                tables.cache.as_mut_ptr(),
            )
        };
        assert_eq!(refusal, 0, "ours refuses the target or the function");
        Opened(tables)
    }
}

/// Resolves a patch of numbers without free units: how many edits it has, or the refusal.
#[inline(never)]
pub fn timed_ours_drawn(
    opened: &mut Opened,
    numbers: &[u32],
    memory: &mut Memory,
) -> Result<usize, u8> {
    let Opened(tables) = opened;
    let mut refusal = 0;
    let mut position = 0;
    // SAFETY: the tables are as `parallel_moves_open` and the last call left
    // them, each array is as long as the function says, the flags are 0 or 1.
    let count = unsafe {
        parallel_moves_resolve(
            tables.target.as_ptr(),
            tables.function.as_ptr(),
            numbers.as_ptr(),
            0,
            numbers.as_ptr(),
            numbers.len(),
            tables.cache.as_mut_ptr(),
            memory.list.as_mut_ptr(),
            memory.list.len(),
            &mut refusal,
            &mut position,
            memory.entries.as_mut_ptr(),
            memory.writers.as_mut_ptr(),
            memory.available.as_mut_ptr(),
            memory.sources.as_mut_ptr(),
            memory.edits.as_mut_ptr(),
            memory.slots.as_mut_ptr(),
            memory.diverted.as_mut_ptr(),
            memory.marks.as_mut_ptr(),
            memory.carried.as_mut_ptr(),
        )
    };
    if refusal == 0 {
        Ok(count)
    } else {
        Err(refusal)
    }
}

/// Tries both settings on drawn patches.
#[inline(never)]
pub fn timed_ours_try(
    bytes: &[u8],
    prices: [u32; 4],
    seed: u32,
    patches: u32,
    tallies: &mut [[u64; 263]; 2],
    memory: &mut Memory,
) {
    let [one, two] = tallies;
    // SAFETY: each array is as long as the function says, the flags are 0 or 1.
    let refusal = unsafe {
        parallel_moves_try(
            bytes.as_ptr(),
            bytes.len(),
            &prices,
            seed,
            patches,
            one,
            two,
            memory.tables.target.as_mut_ptr(),
            memory.tables.function.as_mut_ptr(),
            memory.tables.cache.as_mut_ptr(),
            memory.entries.as_mut_ptr(),
            memory.writers.as_mut_ptr(),
            memory.available.as_mut_ptr(),
            memory.sources.as_mut_ptr(),
            memory.edits.as_mut_ptr(),
            memory.slots.as_mut_ptr(),
            memory.diverted.as_mut_ptr(),
            memory.marks.as_mut_ptr(),
            memory.carried.as_mut_ptr(),
        )
    };
    assert_eq!(refusal, 0, "trying is refused");
}

/// Answers a whole job: how many words there are; none if it is refused.
#[inline(never)]
#[unsafe(no_mangle)]
pub extern "C" fn timed_ours_job(bytes: *const u8, len: usize, memory: &mut Memory) -> usize {
    let mut refusal = 0;
    // SAFETY: each array is as long as the function says, the flags are 0 or 1.
    let count = unsafe {
        parallel_moves_answer(
            KEPT_EVICTIONS,
            bytes,
            len,
            memory.words.as_mut_ptr(),
            MOST_WORDS,
            &mut refusal,
            memory.tables.target.as_mut_ptr(),
            memory.tables.function.as_mut_ptr(),
            memory.tables.cache.as_mut_ptr(),
            memory.free_units.as_mut_ptr(),
            memory.entries.as_mut_ptr(),
            memory.writers.as_mut_ptr(),
            memory.available.as_mut_ptr(),
            memory.sources.as_mut_ptr(),
            memory.edits.as_mut_ptr(),
            memory.slots.as_mut_ptr(),
            memory.diverted.as_mut_ptr(),
            memory.marks.as_mut_ptr(),
            memory.carried.as_mut_ptr(),
        )
    };
    if refusal == 0 { count } else { 0 }
}

/// Writes a job from its numbers: how many bytes it has; none if it is refused.
#[inline(never)]
#[unsafe(no_mangle)]
pub extern "C" fn timed_ours_write(numbers: *const u32, len: usize, memory: &mut Memory) -> usize {
    let mut refusal = 0;
    // SAFETY: each array is as long as the function says, the flags are 0 or 1.
    let count = unsafe {
        parallel_moves_write(
            numbers,
            len,
            memory.written.as_mut_ptr(),
            MOST_BYTES,
            &mut refusal,
            memory.work.as_mut_ptr(),
            memory.tables.target.as_mut_ptr(),
            memory.tables.function.as_mut_ptr(),
            memory.available.as_mut_ptr(),
            memory.entries.as_mut_ptr(),
            memory.writers.as_mut_ptr(),
        )
    };
    if refusal == 0 { count } else { 0 }
}

/// Examines a list of edits for a job's first patch: whether it does what is asked, or the
/// refusal.
#[inline(never)]
pub fn timed_ours_examine(bytes: &[u8], words: &[u64], memory: &mut Memory) -> Result<bool, u8> {
    let mut refusal = 0;
    // SAFETY: each array is as long as the function says, the flags are 0 or 1.
    let answered = unsafe {
        parallel_moves_examine(
            bytes.as_ptr(),
            bytes.len(),
            0,
            words.as_ptr(),
            words.len(),
            &mut refusal,
            memory.tables.target.as_mut_ptr(),
            memory.tables.function.as_mut_ptr(),
            memory.free_units.as_mut_ptr(),
            memory.entries.as_mut_ptr(),
            memory.writers.as_mut_ptr(),
            memory.ties.as_mut_ptr(),
            memory.cells.as_mut_ptr(),
            memory.start.as_mut_ptr(),
            memory.held.as_mut_ptr(),
            memory.asked.as_mut_ptr(),
        )
    };
    match answered {
        2 => Err(refusal),
        said => Ok(said == 1),
    }
}
