//! Lists of edits examined: `examine_c`.

use super::{Entries, Function, Opened, RegInfo, RegUnitSet, SparseMap, table};
use crate::entity::RegUnit;

/// Which kept moves have the same content in every start.
type Ties = [u16; 12_416];
/// What the machine holds.
type Cells = [u16; 67_072];
/// A list of words on its way.
type Words = [u16; 10];

unsafe extern "C" {
    #[link_name = "parallel_moves_examine_5"]
    fn parallel_moves_examine(
        job: *const u8,
        job_length: usize,
        patch: u32,
        words: *const u64,
        words_length: usize,
        refusal: &mut u8,
        target: &mut RegInfo,
        function: &mut Function,
        free: &mut RegUnitSet,
        entries: &mut Entries,
        writers: &mut SparseMap,
        ties: &mut Ties,
        cells: &mut Cells,
        start: &mut Cells,
        held: &mut Words,
        asked: &mut Words,
    ) -> u8;

    #[link_name = "parallel_moves_examine_in_5"]
    fn parallel_moves_examine_in(
        limit: u32,
        job: *const u8,
        job_length: usize,
        patch: u32,
        words: *const u64,
        words_length: usize,
        refusal: &mut u8,
        target: &mut RegInfo,
        function: &mut Function,
        free: &mut RegUnitSet,
        entries: &mut Entries,
        writers: &mut SparseMap,
        ties: &mut Ties,
        cells: &mut Cells,
        start: &mut Cells,
        held: &mut Words,
        asked: &mut Words,
    ) -> u8;

    #[link_name = "parallel_moves_examine_opened_5"]
    fn parallel_moves_examine_opened(
        target: &RegInfo,
        function: &Function,
        free_units: *const u32,
        free_units_length: usize,
        numbers: *const u32,
        numbers_length: usize,
        words: *const u64,
        words_length: usize,
        refusal: &mut u8,
        units: &mut RegUnitSet,
        entries: &mut Entries,
        writers: &mut SparseMap,
        ties: &mut Ties,
        cells: &mut Cells,
        start: &mut Cells,
        held: &mut Words,
        asked: &mut Words,
    ) -> u8;

    #[link_name = "parallel_moves_examine_formula_5"]
    fn parallel_moves_examine_formula(
        limit: u32,
        target: &RegInfo,
        function: &Function,
        free_units: *const u32,
        free_units_length: usize,
        numbers: *const u32,
        numbers_length: usize,
        words: *const u64,
        words_length: usize,
        refusal: &mut u8,
        units: &mut RegUnitSet,
        entries: &mut Entries,
        writers: &mut SparseMap,
        ties: &mut Ties,
        cells: &mut Cells,
        start: &mut Cells,
        held: &mut Words,
        asked: &mut Words,
    ) -> u8;
}

/// What the library answers where something is refused.
const REFUSED: u8 = 2;

/// An answer and the number beside it: whether it is a yes; if something is refused, the
/// number.
fn told(answered: u8, refusal: u8) -> Result<bool, u8> {
    match answered {
        REFUSED => Err(refusal),
        _ => Ok(answered == 1),
    }
}

/// The tables that a list of edits is examined with, beside a target and a function: a third
/// of a megabyte, which no stack holds on the way.
pub(crate) struct ExamineTables {
    free: Box<RegUnitSet>,
    entries: Box<Entries>,
    writers: Box<SparseMap>,
    ties: Box<Ties>,
    cells: Box<Cells>,
    start: Box<Cells>,
    held: Words,
    asked: Words,
}

impl ExamineTables {
    pub(crate) fn new() -> Self {
        ExamineTables {
            free: table(),
            entries: table(),
            writers: table(),
            ties: table(),
            cells: table(),
            start: table(),
            held: [0; 10],
            asked: [0; 10],
        }
    }

    /// Whether the words do what a patch of an opened function asks, where slots below N plus
    /// `limit`, or L where there is none, may be named; if something is refused, the number.
    ///
    /// # Safety
    ///
    /// Target and function are as an opening left them that was not refused.
    pub(super) unsafe fn examine(
        &mut self,
        limit: Option<u32>,
        (target, function): (&RegInfo, &Function),
        free: &[RegUnit],
        entries: &[[u32; 4]],
        words: &[u64],
    ) -> Result<bool, u8> {
        let entries = entries.as_flattened();
        let mut refusal = 0;
        // SAFETY: target and function are open, as the caller sees to. The lists are as long as
        // the function is told, a unit is one number, and each table has the length that it is
        // declared with and is borrowed mutably. The function keeps no pointer.
        let answered = unsafe {
            match limit {
                None => parallel_moves_examine_opened(
                    target,
                    function,
                    free.as_ptr().cast(),
                    free.len(),
                    entries.as_ptr(),
                    entries.len(),
                    words.as_ptr(),
                    words.len(),
                    &mut refusal,
                    &mut self.free,
                    &mut self.entries,
                    &mut self.writers,
                    &mut self.ties,
                    &mut self.cells,
                    &mut self.start,
                    &mut self.held,
                    &mut self.asked,
                ),
                Some(limit) => parallel_moves_examine_formula(
                    limit,
                    target,
                    function,
                    free.as_ptr().cast(),
                    free.len(),
                    entries.as_ptr(),
                    entries.len(),
                    words.as_ptr(),
                    words.len(),
                    &mut refusal,
                    &mut self.free,
                    &mut self.entries,
                    &mut self.writers,
                    &mut self.ties,
                    &mut self.cells,
                    &mut self.start,
                    &mut self.held,
                    &mut self.asked,
                ),
            }
        };
        told(answered, refusal)
    }
}

impl Opened {
    /// Whether the words do what a patch of the function asks; if something is refused, the
    /// number.
    pub(crate) fn examine(
        &self,
        by: &mut ExamineTables,
        free: &[RegUnit],
        entries: &[[u32; 4]],
        words: &[u64],
    ) -> Result<bool, u8> {
        let Opened(tables, _) = self;
        // SAFETY: target and function are as `open` left them when it did not refuse: `Tables`
        // becomes `Opened` only there, and nothing else has them.
        unsafe {
            by.examine(
                None,
                (&tables.target, &tables.function),
                free,
                entries,
                words,
            )
        }
    }
}

/// The tables that a list of edits is examined with for a job: half a megabyte.
pub(crate) struct Examiner {
    target: Box<RegInfo>,
    function: Box<Function>,
    tables: ExamineTables,
}

impl Examiner {
    pub(crate) fn new() -> Self {
        Examiner {
            target: table(),
            function: table(),
            tables: ExamineTables::new(),
        }
    }

    /// Whether the words do what a patch asks, where slots below N plus `limit`, or L
    /// where there is none, may be named; if something is refused, the number.
    pub(crate) fn examine(
        &mut self,
        limit: Option<u32>,
        job: &[u8],
        patch: u32,
        words: &[u64],
    ) -> Result<bool, u8> {
        let tables = &mut self.tables;
        let mut refusal = 0;
        // SAFETY: `job` and `words` are as long as the function is told, and each table has
        // the length that it is declared with and is borrowed mutably. The function keeps
        // no pointer.
        let answered = unsafe {
            match limit {
                None => parallel_moves_examine(
                    job.as_ptr(),
                    job.len(),
                    patch,
                    words.as_ptr(),
                    words.len(),
                    &mut refusal,
                    &mut self.target,
                    &mut self.function,
                    &mut tables.free,
                    &mut tables.entries,
                    &mut tables.writers,
                    &mut tables.ties,
                    &mut tables.cells,
                    &mut tables.start,
                    &mut tables.held,
                    &mut tables.asked,
                ),
                Some(limit) => parallel_moves_examine_in(
                    limit,
                    job.as_ptr(),
                    job.len(),
                    patch,
                    words.as_ptr(),
                    words.len(),
                    &mut refusal,
                    &mut self.target,
                    &mut self.function,
                    &mut tables.free,
                    &mut tables.entries,
                    &mut tables.writers,
                    &mut tables.ties,
                    &mut tables.cells,
                    &mut tables.start,
                    &mut tables.held,
                    &mut tables.asked,
                ),
            }
        };
        told(answered, refusal)
    }
}
