//! Patches asked for, and taken later: `asking_c`.

use super::{
    Carried, Diversions, EditBuffer, EmergencySpillSlotCache, Entries, Function, Opened, RegInfo,
    RegUnitSet, Slots, SparseMap, States, table,
};
use crate::entity::RegUnit;

unsafe extern "C" {
    #[link_name = "parallel_moves_ask_5"]
    fn parallel_moves_ask(
        target: &RegInfo,
        function: &Function,
        free_units: *const u32,
        free_units_length: usize,
        numbers: *const u32,
        numbers_length: usize,
        cache: &EmergencySpillSlotCache,
        list: *mut u64,
        list_length: usize,
        refusal: &mut u8,
        made: &mut u16,
        position: &mut u16,
        stamp: &mut u64,
        entries: &mut Entries,
        writers: &mut SparseMap,
        available: &mut RegUnitSet,
        sources: &mut RegUnitSet,
        edits: &mut EditBuffer,
        slots: &mut Slots,
        diverted: &mut Diversions,
        marks: &mut States,
        carried: &mut Carried,
    ) -> usize;

    #[link_name = "parallel_moves_take_5"]
    fn parallel_moves_take(
        made: u16,
        stamp: u64,
        slots: &Slots,
        cache: &mut EmergencySpillSlotCache,
    ) -> u8;
}

/// What an asking left to take: of which opened function, the table of slots of
/// this answer alone, and what goes with it. Only the functions of this module
/// reach it.
pub(crate) struct Pending {
    function: u64,
    slots: Box<Slots>,
    made: u16,
    position: u16,
    stamp: u64,
}

impl Pending {
    /// How many emergency slots the function has once it is taken.
    pub(crate) fn made(&self) -> u16 {
        self.made
    }

    /// The greatest position that the patch met.
    pub(crate) fn position(&self) -> u16 {
        self.position
    }
}

impl Opened {
    /// Nothing to take yet.
    fn nothing(&self) -> Pending {
        Pending {
            function: self.1,
            slots: table(),
            made: 0,
            position: 0,
            stamp: 0,
        }
    }

    /// Asks for a patch, with its edits in `list`: how many it has, and what is
    /// to take; or the refusal's number. The cache stays as it is.
    pub(crate) fn ask(
        &mut self,
        free: &[RegUnit],
        entries: &[[u32; 4]],
        list: &mut [u64],
    ) -> Result<(usize, Pending), u8> {
        let mut pending = None;
        let count = self.ask_again(&mut pending, free, entries, list)?;
        Ok((
            count,
            pending.expect("an asking that is not refused leaves it"),
        ))
    }

    /// The same in the memory of an answer that is not needed any more; after a refusal
    /// there is nothing to take.
    pub(crate) fn ask_again(
        &mut self,
        kept: &mut Option<Pending>,
        free: &[RegUnit],
        entries: &[[u32; 4]],
        list: &mut [u64],
    ) -> Result<usize, u8> {
        let mut pending = kept.take().unwrap_or_else(|| self.nothing());
        let Opened(tables, function) = self;
        pending.function = *function;
        let entries = entries.as_flattened();
        let mut refusal = 0;
        // SAFETY: as in `resolve` of `calls`; the cache is only read, and the table of
        // slots is the new answer's own.
        let count = unsafe {
            parallel_moves_ask(
                &tables.target,
                &tables.function,
                free.as_ptr().cast(),
                free.len(),
                entries.as_ptr(),
                entries.len(),
                &tables.cache,
                list.as_mut_ptr(),
                list.len(),
                &mut refusal,
                &mut pending.made,
                &mut pending.position,
                &mut pending.stamp,
                &mut tables.entries,
                &mut tables.writers,
                &mut tables.available,
                &mut tables.sources,
                &mut tables.edits,
                &mut pending.slots,
                &mut tables.diverted,
                &mut tables.marks,
                &mut tables.carried,
            )
        };
        if refusal == 0 {
            *kept = Some(pending);
            Ok(count)
        } else {
            Err(refusal)
        }
    }

    /// Takes what was asked for: the refusal's number, or 0; none if it is
    /// another function's.
    pub(crate) fn take(&mut self, pending: &Pending) -> Option<u8> {
        let Opened(tables, function) = self;
        if pending.function != *function {
            return None;
        }
        // SAFETY: what is taken is as an asking of this function left it, since
        // nothing else writes a `Pending`, and the cache as the last call left it,
        // see `resolve` of `calls`. The library asks for no more while fewer than 2^64
        // patches were taken or resolved, which takes centuries. It keeps no pointer.
        let refusal = unsafe {
            parallel_moves_take(
                pending.made,
                pending.stamp,
                &pending.slots,
                &mut tables.cache,
            )
        };
        if refusal == 0 {
            tables.position = pending.position;
        }
        Some(refusal)
    }
}
