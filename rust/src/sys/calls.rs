//! Opened functions, patch by patch: `calls_c`.

use std::sync::atomic::Ordering;

use super::{
    Carried, Diversions, EditBuffer, EmergencySpillSlotCache, Entries, Function, NEXT, Opened,
    Prices, RegInfo, RegUnitSet, Slots, SparseMap, States, Tables, table,
};
use crate::entity::RegUnit;

unsafe extern "C" {
    #[link_name = "parallel_moves_open_5"]
    fn parallel_moves_open(
        kept_evictions: u32,
        bytes: *const u8,
        bytes_length: usize,
        target: &mut RegInfo,
        function: &mut Function,
        cache: &mut EmergencySpillSlotCache,
    ) -> u8;

    #[link_name = "parallel_moves_open_priced_5"]
    fn parallel_moves_open_priced(
        kept_evictions: u32,
        prices: &Prices,
        bytes: *const u8,
        bytes_length: usize,
        target: &mut RegInfo,
        function: &mut Function,
        cache: &mut EmergencySpillSlotCache,
    ) -> u8;

    #[link_name = "parallel_moves_priced_job_5"]
    fn parallel_moves_priced_job(
        kept_evictions: u32,
        prices: &Prices,
        bytes: *const u8,
        bytes_length: usize,
        refusal: &mut u8,
        target: &mut RegInfo,
        function: &mut Function,
    ) -> u32;

    #[link_name = "parallel_moves_enough_slots_5"]
    fn parallel_moves_enough_slots(
        kept_evictions: u32,
        bytes: *const u8,
        bytes_length: usize,
        refusal: &mut u8,
        target: &mut RegInfo,
        function: &mut Function,
    ) -> u16;

    #[link_name = "parallel_moves_resolve_5"]
    fn parallel_moves_resolve(
        target: &RegInfo,
        function: &Function,
        free_units: *const u32,
        free_units_length: usize,
        numbers: *const u32,
        numbers_length: usize,
        cache: &mut EmergencySpillSlotCache,
        list: *mut u64,
        list_length: usize,
        refusal: &mut u8,
        position: &mut u16,
        entries: &mut Entries,
        writers: &mut SparseMap,
        available: &mut RegUnitSet,
        sources: &mut RegUnitSet,
        edits: &mut EditBuffer,
        slots: &mut Slots,
        diverted: &mut Diversions,
        marks: &mut States,
        carried: &mut Carried,
    ) -> usize;

    #[link_name = "parallel_moves_made_5"]
    safe fn parallel_moves_made(cache: &EmergencySpillSlotCache) -> u16;
}

impl Tables {
    /// Opens a function with so many kept evictions; if it is refused, the number.
    pub(crate) fn open(mut self, kept_evictions: u32, bytes: &[u8]) -> Result<Opened, u8> {
        // SAFETY: `bytes` is as long as the function is told, and each table
        // has the length that it is declared with and is borrowed mutably. The
        // function keeps no pointer.
        let refusal = unsafe {
            parallel_moves_open(
                kept_evictions,
                bytes.as_ptr(),
                bytes.len(),
                &mut self.target,
                &mut self.function,
                &mut self.cache,
            )
        };
        self.opened(refusal)
    }

    /// The same of a target with these prices.
    pub(crate) fn open_priced(
        mut self,
        kept_evictions: u32,
        prices: Prices,
        bytes: &[u8],
    ) -> Result<Opened, u8> {
        // SAFETY: as in `open`; the prices are four numbers.
        let refusal = unsafe {
            parallel_moves_open_priced(
                kept_evictions,
                &prices,
                bytes.as_ptr(),
                bytes.len(),
                &mut self.target,
                &mut self.function,
                &mut self.cache,
            )
        };
        self.opened(refusal)
    }

    /// What an opening that answered so left in the tables.
    fn opened(mut self, refusal: u8) -> Result<Opened, u8> {
        if refusal == 0 {
            self.position = 0;
            Ok(Opened(self, NEXT.fetch_add(1, Ordering::Relaxed)))
        } else {
            Err(refusal)
        }
    }
}

impl Opened {
    /// Resolves a patch into `list`: how many edits it has, and the refusal's
    /// number or 0.
    #[inline]
    pub(crate) fn resolve(
        &mut self,
        free: &[RegUnit],
        entries: &[[u32; 4]],
        list: &mut [u64],
    ) -> (usize, u8) {
        let Opened(tables, _) = self;
        let entries = entries.as_flattened();
        let mut refusal = 0;
        // SAFETY: target, function and cache are as `open` left them when it
        // did not refuse, and the cache as the last call left it: `Tables`
        // becomes `Opened` only there, and nothing else has them. The lists are
        // as long as the function is told, a unit is one number, and each table
        // has the length that it is declared with. What is written is borrowed
        // mutably. The function keeps no pointer.
        let count = unsafe {
            parallel_moves_resolve(
                &tables.target,
                &tables.function,
                free.as_ptr().cast(),
                free.len(),
                entries.as_ptr(),
                entries.len(),
                &mut tables.cache,
                list.as_mut_ptr(),
                list.len(),
                &mut refusal,
                &mut tables.position,
                &mut tables.entries,
                &mut tables.writers,
                &mut tables.available,
                &mut tables.sources,
                &mut tables.edits,
                &mut tables.slots,
                &mut tables.diverted,
                &mut tables.marks,
                &mut tables.carried,
            )
        };
        (count, refusal)
    }

    /// How many emergency slots were made.
    pub(crate) fn made(&self) -> u16 {
        parallel_moves_made(&self.0.cache)
    }
}

/// The L to plan with for a function with so many kept evictions; if it is refused, the
/// number.
pub(crate) fn enough_slots(kept_evictions: u32, bytes: &[u8]) -> Result<u16, u8> {
    let mut refusal = 0;
    // SAFETY: `bytes` is as long as the function is told, and each table has the
    // length that it is declared with and is borrowed mutably. The function keeps
    // no pointer.
    let enough = unsafe {
        parallel_moves_enough_slots(
            kept_evictions,
            bytes.as_ptr(),
            bytes.len(),
            &mut refusal,
            &mut table(),
            &mut table(),
        )
    };
    if refusal == 0 {
        Ok(enough)
    } else {
        Err(refusal)
    }
}

/// How many patches a job says that it has, of a target with these prices; if its opening is
/// refused, the number.
pub(crate) fn priced_job(kept_evictions: u32, prices: Prices, job: &[u8]) -> Result<u32, u8> {
    let mut refusal = 0;
    // SAFETY: `job` is as long as the function is told, and each table has the length
    // that it is declared with and is borrowed mutably. The function keeps no pointer.
    let patches = unsafe {
        parallel_moves_priced_job(
            kept_evictions,
            &prices,
            job.as_ptr(),
            job.len(),
            &mut refusal,
            &mut table(),
            &mut table(),
        )
    };
    if refusal == 0 {
        Ok(patches)
    } else {
        Err(refusal)
    }
}
