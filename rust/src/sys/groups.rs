//! Patches by groups: `groups_c`; and whole jobs: `answer_groups_c`.

use super::{
    Carried, Diversions, EditBuffer, EmergencySpillSlotCache, Entries, Function, Joined, Labels,
    Opened, Owners, RegInfo, RegUnitSet, Slots, SparseMap, States, Tables, table,
};
use crate::entity::RegUnit;

/// The numbers of a patch's entries.
type Numbers = [u32; 512];

unsafe extern "C" {
    #[link_name = "parallel_moves_resolve_groups_5"]
    fn parallel_moves_resolve_groups(
        target: &RegInfo,
        function: &Function,
        free_units: *const u32,
        free_units_length: usize,
        numbers: *const u32,
        numbers_length: usize,
        cache: &mut EmergencySpillSlotCache,
        list: *mut u64,
        list_length: usize,
        refusal: &mut u8,
        position: &mut u16,
        units: &mut RegUnitSet,
        entries: &mut Entries,
        writers: &mut SparseMap,
        available: &mut RegUnitSet,
        sources: &mut RegUnitSet,
        edits: &mut EditBuffer,
        slots: &mut Slots,
        diverted: &mut Diversions,
        marks: &mut States,
        carried: &mut Carried,
        owners: &mut Owners,
        labels: &mut Labels,
        next: &mut Labels,
        common: &mut RegUnitSet,
        work: &mut EmergencySpillSlotCache,
        joined: &mut Joined,
    ) -> usize;

    #[link_name = "parallel_moves_answer_groups_5"]
    fn parallel_moves_answer_groups(
        kept_evictions: u32,
        job: *const u8,
        job_length: usize,
        words: *mut u64,
        words_length: usize,
        refusal: &mut u8,
        target: &mut RegInfo,
        function: &mut Function,
        cache: &mut EmergencySpillSlotCache,
        free: &mut RegUnitSet,
        entries: &mut Entries,
        writers: &mut SparseMap,
        available: &mut RegUnitSet,
        sources: &mut RegUnitSet,
        edits: &mut EditBuffer,
        slots: &mut Slots,
        diverted: &mut Diversions,
        marks: &mut States,
        carried: &mut Carried,
        owners: &mut Owners,
        labels: &mut Labels,
        next: &mut Labels,
        common: &mut RegUnitSet,
        work: &mut EmergencySpillSlotCache,
        joined: &mut Joined,
        numbers: &mut Numbers,
    ) -> usize;
}

/// The tables that only a call by groups and a job by groups need.
pub(super) struct GroupTables {
    pub(super) owners: Box<Owners>,
    pub(super) labels: Box<Labels>,
    pub(super) next: Box<Labels>,
    pub(super) common: Box<RegUnitSet>,
    pub(super) work: Box<EmergencySpillSlotCache>,
    pub(super) joined: Box<Joined>,
    numbers: Box<Numbers>,
}

impl GroupTables {
    pub(super) fn new() -> Self {
        GroupTables {
            owners: table(),
            labels: table(),
            next: table(),
            common: table(),
            work: table(),
            joined: table(),
            numbers: table(),
        }
    }
}

/// Where a cache is kept while a patch is resolved on a copy of it.
pub(crate) struct Spare(Box<EmergencySpillSlotCache>);

impl Spare {
    pub(crate) fn new() -> Self {
        Spare(table())
    }
}

impl Opened {
    /// As `resolve_groups`, on a copy of the cache, which is kept only if `confirm` is
    /// content with the words, if they are no more than there is room for: else, and where the
    /// patch is refused, the function is as before.
    pub(crate) fn resolve_groups_if<E>(
        &mut self,
        spare: &mut Spare,
        free: &[RegUnit],
        entries: &[[u32; 4]],
        list: &mut [u64],
        confirm: impl FnOnce(&Opened, Option<&[u64]>) -> Result<(), E>,
    ) -> Result<(usize, u8), E> {
        let position = self.0.position;
        spare.0.copy_from_slice(&self.0.cache[..]);
        std::mem::swap(&mut spare.0, &mut self.0.cache);
        let (count, refusal) = self.resolve_groups(free, entries, list);
        let confirmed = match refusal {
            0 => confirm(self, list.get(..count)),
            _ => Ok(()),
        };
        if refusal != 0 || confirmed.is_err() {
            std::mem::swap(&mut spare.0, &mut self.0.cache);
            self.0.position = position;
        }
        confirmed.map(|()| (count, refusal))
    }

    /// As `resolve`, by groups.
    pub(crate) fn resolve_groups(
        &mut self,
        free: &[RegUnit],
        entries: &[[u32; 4]],
        list: &mut [u64],
    ) -> (usize, u8) {
        let Opened(tables, _) = self;
        let entries = entries.as_flattened();
        let groups = tables.groups.get_or_insert_with(GroupTables::new);
        let mut refusal = 0;
        // SAFETY: as in `resolve` of `calls`.
        let count = unsafe {
            parallel_moves_resolve_groups(
                &tables.target,
                &tables.function,
                free.as_ptr().cast(),
                free.len(),
                entries.as_ptr(),
                entries.len(),
                &mut tables.cache,
                list.as_mut_ptr(),
                list.len(),
                &mut refusal,
                &mut tables.position,
                &mut tables.free,
                &mut tables.entries,
                &mut tables.writers,
                &mut tables.available,
                &mut tables.sources,
                &mut tables.edits,
                &mut tables.slots,
                &mut tables.diverted,
                &mut tables.marks,
                &mut tables.carried,
                &mut groups.owners,
                &mut groups.labels,
                &mut groups.next,
                &mut groups.common,
                &mut groups.work,
                &mut groups.joined,
            )
        };
        (count, refusal)
    }
}

impl Tables {
    /// As `answer`, each patch by groups.
    pub(crate) fn answer_groups(
        &mut self,
        kept_evictions: u32,
        job: &[u8],
        words: &mut [u64],
    ) -> (usize, u8) {
        let groups = self.groups.get_or_insert_with(GroupTables::new);
        let mut refusal = 0;
        // SAFETY: as in `answer` of `jobs`.
        let count = unsafe {
            parallel_moves_answer_groups(
                kept_evictions,
                job.as_ptr(),
                job.len(),
                words.as_mut_ptr(),
                words.len(),
                &mut refusal,
                &mut self.target,
                &mut self.function,
                &mut self.cache,
                &mut self.free,
                &mut self.entries,
                &mut self.writers,
                &mut self.available,
                &mut self.sources,
                &mut self.edits,
                &mut self.slots,
                &mut self.diverted,
                &mut self.marks,
                &mut self.carried,
                &mut groups.owners,
                &mut groups.labels,
                &mut groups.next,
                &mut groups.common,
                &mut groups.work,
                &mut groups.joined,
                &mut groups.numbers,
            )
        };
        (count, refusal)
    }
}
