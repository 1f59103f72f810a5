//! Settings tried on drawn patches: `trying_c`.

use super::{
    Carried, Diversions, EditBuffer, EmergencySpillSlotCache, Entries, Function, Prices, RegInfo,
    RegUnitSet, Slots, SparseMap, States, Tables,
};

/// Accepted patches, M, R, S, L, evictions and price; then the refusals by number.
pub(crate) type Tally = [u64; 263];

unsafe extern "C" {
    #[link_name = "parallel_moves_try_5"]
    fn parallel_moves_try(
        job: *const u8,
        job_length: usize,
        prices: &Prices,
        seed: u32,
        patches: u32,
        one: &mut Tally,
        two: &mut Tally,
        target: &mut RegInfo,
        function: &mut Function,
        cache: &mut EmergencySpillSlotCache,
        entries: &mut Entries,
        writers: &mut SparseMap,
        available: &mut RegUnitSet,
        sources: &mut RegUnitSet,
        edits: &mut EditBuffer,
        slots: &mut Slots,
        diverted: &mut Diversions,
        marks: &mut States,
        carried: &mut Carried,
    ) -> u8;
}

/// Draws patches of a function and counts what becomes of them at each setting; if it is
/// refused, the number.
pub(crate) fn try_settings(
    job: &[u8],
    prices: Prices,
    seed: u32,
    patches: u32,
) -> Result<[Tally; 2], u8> {
    let mut tables = Tables::new();
    let (mut one, mut two) = ([0; 263], [0; 263]);
    // SAFETY: `job` is as long as the function is told, and each table has the length
    // that it is declared with and is borrowed mutably. The function keeps no pointer.
    let refusal = unsafe {
        parallel_moves_try(
            job.as_ptr(),
            job.len(),
            &prices,
            seed,
            patches,
            &mut one,
            &mut two,
            &mut tables.target,
            &mut tables.function,
            &mut tables.cache,
            &mut tables.entries,
            &mut tables.writers,
            &mut tables.available,
            &mut tables.sources,
            &mut tables.edits,
            &mut tables.slots,
            &mut tables.diverted,
            &mut tables.marks,
            &mut tables.carried,
        )
    };
    if refusal == 0 {
        Ok([one, two])
    } else {
        Err(refusal)
    }
}
