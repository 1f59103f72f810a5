//! Formulas that share a frame: `frame_c`.

use std::sync::atomic::Ordering;

use super::groups::GroupTables;
use super::{
    Carried, Diversions, EditBuffer, EmergencySpillSlotCache, Entries, ExamineTables, Function,
    Joined, Labels, NEXT, Owners, RegInfo, RegUnitSet, Slots, SparseMap, States, Tables, table,
};
use crate::entity::RegUnit;

/// A frame that formulas share.
type Frame = [u16; 37];

/// Where a function's table has how many ordinary slots there are.
const ORDINARY_SLOTS: usize = 16_385;

unsafe extern "C" {
    #[link_name = "parallel_moves_frame_open_5"]
    fn parallel_moves_frame_open(
        frame: &mut Frame,
        limit: u32,
        shares: *const u32,
        shares_length: usize,
    ) -> u8;

    #[link_name = "parallel_moves_frame_formula_5"]
    fn parallel_moves_frame_formula(
        frame: &mut Frame,
        formula: usize,
        kept_evictions: u32,
        bytes: *const u8,
        bytes_length: usize,
        target: &mut RegInfo,
        function: &mut Function,
        cache: &mut EmergencySpillSlotCache,
    ) -> u8;

    #[link_name = "parallel_moves_frame_resolve_5"]
    fn parallel_moves_frame_resolve(
        frame: &mut Frame,
        formula: usize,
        target: &RegInfo,
        function: &Function,
        free_units: *const u32,
        free_units_length: usize,
        numbers: *const u32,
        numbers_length: usize,
        cache: &mut EmergencySpillSlotCache,
        list: *mut u64,
        list_length: usize,
        refusal: &mut u8,
        position: &mut u16,
        entries: &mut Entries,
        writers: &mut SparseMap,
        available: &mut RegUnitSet,
        sources: &mut RegUnitSet,
        edits: &mut EditBuffer,
        slots: &mut Slots,
        diverted: &mut Diversions,
        marks: &mut States,
        carried: &mut Carried,
    ) -> usize;

    #[link_name = "parallel_moves_frame_resolve_groups_5"]
    fn parallel_moves_frame_resolve_groups(
        frame: &mut Frame,
        formula: usize,
        target: &RegInfo,
        function: &Function,
        free_units: *const u32,
        free_units_length: usize,
        numbers: *const u32,
        numbers_length: usize,
        cache: &mut EmergencySpillSlotCache,
        list: *mut u64,
        list_length: usize,
        refusal: &mut u8,
        position: &mut u16,
        units: &mut RegUnitSet,
        entries: &mut Entries,
        writers: &mut SparseMap,
        available: &mut RegUnitSet,
        sources: &mut RegUnitSet,
        edits: &mut EditBuffer,
        slots: &mut Slots,
        diverted: &mut Diversions,
        marks: &mut States,
        carried: &mut Carried,
        owners: &mut Owners,
        labels: &mut Labels,
        next: &mut Labels,
        common: &mut RegUnitSet,
        work: &mut EmergencySpillSlotCache,
        joined: &mut Joined,
    ) -> usize;

    #[link_name = "parallel_moves_frame_ask_5"]
    fn parallel_moves_frame_ask(
        frame: &Frame,
        formula: usize,
        target: &RegInfo,
        function: &Function,
        free_units: *const u32,
        free_units_length: usize,
        numbers: *const u32,
        numbers_length: usize,
        cache: &EmergencySpillSlotCache,
        list: *mut u64,
        list_length: usize,
        refusal: &mut u8,
        to: &mut u16,
        made: &mut u16,
        position: &mut u16,
        stamp: &mut u64,
        counter: &mut u16,
        entries: &mut Entries,
        writers: &mut SparseMap,
        available: &mut RegUnitSet,
        sources: &mut RegUnitSet,
        edits: &mut EditBuffer,
        slots: &mut Slots,
        diverted: &mut Diversions,
        marks: &mut States,
        carried: &mut Carried,
    ) -> usize;

    #[link_name = "parallel_moves_frame_take_5"]
    fn parallel_moves_frame_take(
        frame: &mut Frame,
        formula: usize,
        to: u16,
        stamp: u64,
        counter: u16,
        slots: &Slots,
        cache: &mut EmergencySpillSlotCache,
    ) -> u8;

    #[link_name = "parallel_moves_frame_made_5"]
    fn parallel_moves_frame_made(frame: &Frame, formula: usize) -> u16;
}

/// A frame, the tables of its formulas, and a number that no other has. Only the functions of
/// this module reach them.
pub(crate) struct OpenedFrame {
    frame: Box<Frame>,
    formulas: Vec<Tables>,
    number: u64,
}

/// What an asking of a formula left to take: of which opened frame and formula, the table of
/// slots of this answer alone, and what goes with it. Only the functions of this module reach it.
pub(crate) struct PendingInFrame {
    frame: u64,
    formula: usize,
    slots: Box<Slots>,
    to: u16,
    made: u16,
    position: u16,
    stamp: u64,
    counter: u16,
}

impl PendingInFrame {
    /// How many emergency slots its formula has made once it is taken.
    pub(crate) fn made(&self) -> u16 {
        self.made
    }

    /// The greatest position that the patch met.
    pub(crate) fn position(&self) -> u16 {
        self.position
    }
}

impl OpenedFrame {
    /// Opens a frame, which has no formulas yet; if it is refused, the number.
    pub(crate) fn open(limit: u32, shares: &[u32]) -> Result<Self, u8> {
        let mut frame = table();
        // SAFETY: `shares` is as long as the function is told, and the table has the length that
        // it is declared with. The function keeps no pointer.
        let refusal =
            unsafe { parallel_moves_frame_open(&mut frame, limit, shares.as_ptr(), shares.len()) };
        match refusal {
            0 => Ok(OpenedFrame {
                frame,
                formulas: Vec::with_capacity(shares.len()),
                number: NEXT.fetch_add(1, Ordering::Relaxed),
            }),
            number => Err(number),
        }
    }

    /// Opens the next formula; if it is refused, the number. There are no more than shares were
    /// given.
    pub(crate) fn open_formula(&mut self, kept_evictions: u32, bytes: &[u8]) -> Result<(), u8> {
        let mut tables = Tables::new();
        // SAFETY: `bytes` is as long as the function is told, and each table has the length that
        // it is declared with and is borrowed mutably. The frame is as `open` and the formulas
        // before left it. The function keeps no pointer.
        let refusal = unsafe {
            parallel_moves_frame_formula(
                &mut self.frame,
                self.formulas.len(),
                kept_evictions,
                bytes.as_ptr(),
                bytes.len(),
                &mut tables.target,
                &mut tables.function,
                &mut tables.cache,
            )
        };
        match refusal {
            0 => {
                self.formulas.push(tables);
                Ok(())
            }
            number => Err(number),
        }
    }

    /// How many formulas are open.
    pub(crate) fn len(&self) -> usize {
        self.formulas.len()
    }

    /// Resolves a patch of a formula into `list`: how many edits it has, and the refusal's number
    /// or 0.
    pub(crate) fn resolve(
        &mut self,
        formula: usize,
        free: &[RegUnit],
        entries: &[[u32; 4]],
        list: &mut [u64],
    ) -> (usize, u8) {
        let tables = &mut self.formulas[formula];
        let entries = entries.as_flattened();
        let mut refusal = 0;
        // SAFETY: the formula is open, so that there is one with this number in the frame; its
        // target, function and cache, and the frame, are as opening and the last calls left them,
        // since only this module's functions reach them. Lists are as long as the function is
        // told, tables as they are declared; what is written is borrowed mutably. The function
        // keeps no pointer.
        let count = unsafe {
            parallel_moves_frame_resolve(
                &mut self.frame,
                formula,
                &tables.target,
                &tables.function,
                free.as_ptr().cast(),
                free.len(),
                entries.as_ptr(),
                entries.len(),
                &mut tables.cache,
                list.as_mut_ptr(),
                list.len(),
                &mut refusal,
                &mut tables.position,
                &mut tables.entries,
                &mut tables.writers,
                &mut tables.available,
                &mut tables.sources,
                &mut tables.edits,
                &mut tables.slots,
                &mut tables.diverted,
                &mut tables.marks,
                &mut tables.carried,
            )
        };
        (count, refusal)
    }

    /// As `resolve`, by groups.
    pub(crate) fn resolve_groups(
        &mut self,
        formula: usize,
        free: &[RegUnit],
        entries: &[[u32; 4]],
        list: &mut [u64],
    ) -> (usize, u8) {
        let tables = &mut self.formulas[formula];
        let entries = entries.as_flattened();
        let groups = tables.groups.get_or_insert_with(GroupTables::new);
        let mut refusal = 0;
        // SAFETY: as in `resolve`.
        let count = unsafe {
            parallel_moves_frame_resolve_groups(
                &mut self.frame,
                formula,
                &tables.target,
                &tables.function,
                free.as_ptr().cast(),
                free.len(),
                entries.as_ptr(),
                entries.len(),
                &mut tables.cache,
                list.as_mut_ptr(),
                list.len(),
                &mut refusal,
                &mut tables.position,
                &mut tables.free,
                &mut tables.entries,
                &mut tables.writers,
                &mut tables.available,
                &mut tables.sources,
                &mut tables.edits,
                &mut tables.slots,
                &mut tables.diverted,
                &mut tables.marks,
                &mut tables.carried,
                &mut groups.owners,
                &mut groups.labels,
                &mut groups.next,
                &mut groups.common,
                &mut groups.work,
                &mut groups.joined,
            )
        };
        (count, refusal)
    }

    /// Asks for a patch of a formula, with its edits in `list`: how many it has, and what is to
    /// take; or the refusal's number. Frame and cache stay as they are.
    pub(crate) fn ask(
        &mut self,
        formula: usize,
        free: &[RegUnit],
        entries: &[[u32; 4]],
        list: &mut [u64],
    ) -> Result<(usize, PendingInFrame), u8> {
        let tables = &mut self.formulas[formula];
        let entries = entries.as_flattened();
        let mut refusal = 0;
        let mut pending = PendingInFrame {
            frame: self.number,
            formula,
            slots: table(),
            to: 0,
            made: 0,
            position: 0,
            stamp: 0,
            counter: 0,
        };
        // SAFETY: as in `resolve`; frame and cache are only read, and the table of slots is the
        // new answer's own.
        let count = unsafe {
            parallel_moves_frame_ask(
                &self.frame,
                formula,
                &tables.target,
                &tables.function,
                free.as_ptr().cast(),
                free.len(),
                entries.as_ptr(),
                entries.len(),
                &tables.cache,
                list.as_mut_ptr(),
                list.len(),
                &mut refusal,
                &mut pending.to,
                &mut pending.made,
                &mut pending.position,
                &mut pending.stamp,
                &mut pending.counter,
                &mut tables.entries,
                &mut tables.writers,
                &mut tables.available,
                &mut tables.sources,
                &mut tables.edits,
                &mut pending.slots,
                &mut tables.diverted,
                &mut tables.marks,
                &mut tables.carried,
            )
        };
        if refusal == 0 {
            Ok((count, pending))
        } else {
            Err(refusal)
        }
    }

    /// Takes what was asked for: the refusal's number, or 0; none if it is another frame's.
    pub(crate) fn take(&mut self, pending: &PendingInFrame) -> Option<u8> {
        if pending.frame != self.number {
            return None;
        }
        let tables = &mut self.formulas[pending.formula];
        // SAFETY: what is taken is as an asking of this formula left it, since nothing else writes
        // a `PendingInFrame`; frame and cache are as the last calls left them, see `resolve`. The
        // library asks for no more while fewer than 2^64 patches were taken or resolved. It keeps
        // no pointer.
        let refusal = unsafe {
            parallel_moves_frame_take(
                &mut self.frame,
                pending.formula,
                pending.to,
                pending.stamp,
                pending.counter,
                &pending.slots,
                &mut tables.cache,
            )
        };
        if refusal == 0 {
            tables.position = pending.position;
        }
        Some(refusal)
    }

    /// Whether the words do what a patch of a formula asks, where slots below N plus `limit`
    /// may be named; if something is refused, the number.
    pub(crate) fn examine(
        &self,
        (limit, formula): (u32, usize),
        by: &mut ExamineTables,
        free: &[RegUnit],
        entries: &[[u32; 4]],
        words: &[u64],
    ) -> Result<bool, u8> {
        let tables = &self.formulas[formula];
        let opened = (&*tables.target, &*tables.function);
        // SAFETY: the formula is open, and only this module's functions reach its tables.
        unsafe { by.examine(Some(limit), opened, free, entries, words) }
    }

    /// How many ordinary slots each formula has.
    pub(crate) fn ordinary_slots(&self) -> u16 {
        self.formulas[0].function[ORDINARY_SLOTS]
    }

    /// How many emergency slots a formula has made.
    pub(crate) fn made(&self, formula: usize) -> u16 {
        assert!(
            formula < self.formulas.len(),
            "there is no formula {formula}"
        );
        // SAFETY: the frame has at most 16 formulas, and this is one of them.
        unsafe { parallel_moves_frame_made(&self.frame, formula) }
    }

    /// The greatest position that the last patch of a formula met.
    pub(crate) fn position(&self, formula: usize) -> u16 {
        self.formulas[formula].position
    }
}
