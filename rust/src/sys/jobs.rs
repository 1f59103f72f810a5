//! Whole jobs, and the text of an answer: `parallel_moves_c`.

use super::{
    Carried, Diversions, EditBuffer, EmergencySpillSlotCache, Entries, Function, RegInfo,
    RegUnitSet, Slots, SparseMap, States, Tables,
};

unsafe extern "C" {
    #[link_name = "parallel_moves_answer_5"]
    fn parallel_moves_answer(
        kept_evictions: u32,
        job: *const u8,
        job_length: usize,
        words: *mut u64,
        words_length: usize,
        refusal: &mut u8,
        target: &mut RegInfo,
        function: &mut Function,
        cache: &mut EmergencySpillSlotCache,
        free: &mut RegUnitSet,
        entries: &mut Entries,
        writers: &mut SparseMap,
        available: &mut RegUnitSet,
        sources: &mut RegUnitSet,
        edits: &mut EditBuffer,
        slots: &mut Slots,
        diverted: &mut Diversions,
        marks: &mut States,
        carried: &mut Carried,
    ) -> usize;

    #[link_name = "parallel_moves_text_5"]
    fn parallel_moves_text(
        words: *const u64,
        words_length: usize,
        refusal: u8,
        text: *mut u8,
        text_length: usize,
    ) -> usize;
}

impl Tables {
    /// Answers a job with so many kept evictions into `words`: how many of them
    /// its resolved patches have, and the refusal's number or 0. What the tables
    /// hold does not matter.
    pub(crate) fn answer(
        &mut self,
        kept_evictions: u32,
        job: &[u8],
        words: &mut [u64],
    ) -> (usize, u8) {
        let mut refusal = 0;
        // SAFETY: `job` and `words` are as long as the function is told, and
        // each table has the length that it is declared with. `words` and the
        // tables are borrowed mutably, so that nothing else reads or writes
        // them. The function keeps no pointer.
        let count = unsafe {
            parallel_moves_answer(
                kept_evictions,
                job.as_ptr(),
                job.len(),
                words.as_mut_ptr(),
                words.len(),
                &mut refusal,
                &mut self.target,
                &mut self.function,
                &mut self.cache,
                &mut self.free,
                &mut self.entries,
                &mut self.writers,
                &mut self.available,
                &mut self.sources,
                &mut self.edits,
                &mut self.slots,
                &mut self.diverted,
                &mut self.marks,
                &mut self.carried,
            )
        };
        (count, refusal)
    }
}

/// Writes the text of an answer into `text`: its length. `None` if `text` is
/// too short.
pub(crate) fn text(words: &[u64], refusal: u8, text: &mut [u8]) -> Option<usize> {
    // SAFETY: `words` and `text` are as long as the function is told, and
    // `text` is borrowed mutably. The function keeps no pointer.
    let length = unsafe {
        parallel_moves_text(
            words.as_ptr(),
            words.len(),
            refusal,
            text.as_mut_ptr(),
            text.len(),
        )
    };
    (length != 0).then_some(length)
}
