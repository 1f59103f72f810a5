//! The functions of the static library.

#[link(name = "parallel_moves_c", kind = "static")]
#[link(name = "calls_c", kind = "static")]
#[link(name = "asking_c", kind = "static")]
#[link(name = "groups_c", kind = "static")]
#[link(name = "answer_groups_c", kind = "static")]
#[link(name = "frame_c", kind = "static")]
#[link(name = "job_writer_c", kind = "static")]
#[link(name = "price_c", kind = "static")]
#[link(name = "trying_c", kind = "static")]
#[link(name = "examine_c", kind = "static")]
unsafe extern "C" {
    #[link_name = "parallel_moves_open_5"]
    pub fn parallel_moves_open(
        kept_evictions: u32,
        bytes: *const u8,
        bytes_len: usize,
        target: *mut u16,
        function: *mut u16,
        cache: *mut u16,
    ) -> u8;

    #[link_name = "parallel_moves_resolve_5"]
    pub fn parallel_moves_resolve(
        target: *const u16,
        function: *const u16,
        free_units: *const u32,
        free_units_len: usize,
        numbers: *const u32,
        numbers_len: usize,
        cache: *mut u16,
        list: *mut u64,
        list_len: usize,
        refusal: *mut u8,
        position: *mut u16,
        entries: *mut u16,
        writers: *mut u16,
        available: *mut u8,
        sources: *mut u8,
        edits: *mut u64,
        slots: *mut u16,
        diverted: *mut u16,
        marks: *mut u8,
        carried: *mut u16,
    ) -> usize;

    #[link_name = "parallel_moves_resolve_groups_5"]
    pub fn parallel_moves_resolve_groups(
        target: *const u16,
        function: *const u16,
        free_units: *const u32,
        free_units_len: usize,
        numbers: *const u32,
        numbers_len: usize,
        cache: *mut u16,
        list: *mut u64,
        list_len: usize,
        refusal: *mut u8,
        position: *mut u16,
        units: *mut u8,
        entries: *mut u16,
        writers: *mut u16,
        available: *mut u8,
        sources: *mut u8,
        edits: *mut u64,
        slots: *mut u16,
        diverted: *mut u16,
        marks: *mut u8,
        carried: *mut u16,
        owners: *mut u8,
        labels: *mut u8,
        next: *mut u8,
        common: *mut u8,
        work: *mut u16,
        joined: *mut u64,
    ) -> usize;

    #[link_name = "parallel_moves_try_5"]
    pub fn parallel_moves_try(
        job: *const u8,
        job_len: usize,
        prices: &[u32; 4],
        seed: u32,
        patches: u32,
        one: &mut [u64; 263],
        two: &mut [u64; 263],
        target: *mut u16,
        function: *mut u16,
        cache: *mut u16,
        entries: *mut u16,
        writers: *mut u16,
        available: *mut u8,
        sources: *mut u8,
        edits: *mut u64,
        slots: *mut u16,
        diverted: *mut u16,
        marks: *mut u8,
        carried: *mut u16,
    ) -> u8;

    #[link_name = "parallel_moves_answer_5"]
    pub fn parallel_moves_answer(
        kept_evictions: u32,
        job: *const u8,
        job_len: usize,
        words: *mut u64,
        words_len: usize,
        refusal: *mut u8,
        target: *mut u16,
        function: *mut u16,
        cache: *mut u16,
        free_units: *mut u8,
        entries: *mut u16,
        writers: *mut u16,
        available: *mut u8,
        sources: *mut u8,
        edits: *mut u64,
        slots: *mut u16,
        diverted: *mut u16,
        marks: *mut u8,
        carried: *mut u16,
    ) -> usize;

    #[link_name = "parallel_moves_answer_groups_5"]
    pub fn parallel_moves_answer_groups(
        kept_evictions: u32,
        job: *const u8,
        job_len: usize,
        words: *mut u64,
        words_len: usize,
        refusal: *mut u8,
        target: *mut u16,
        function: *mut u16,
        cache: *mut u16,
        free_units: *mut u8,
        entries: *mut u16,
        writers: *mut u16,
        available: *mut u8,
        sources: *mut u8,
        edits: *mut u64,
        slots: *mut u16,
        diverted: *mut u16,
        marks: *mut u8,
        carried: *mut u16,
        owners: *mut u8,
        labels: *mut u8,
        next: *mut u8,
        common: *mut u8,
        work: *mut u16,
        joined: *mut u64,
        numbers: *mut u32,
    ) -> usize;

    #[link_name = "parallel_moves_write_5"]
    pub fn parallel_moves_write(
        numbers: *const u32,
        numbers_len: usize,
        bytes: *mut u8,
        bytes_len: usize,
        refusal: *mut u8,
        work: *mut u8,
        target: *mut u16,
        function: *mut u16,
        available: *mut u8,
        entries: *mut u16,
        writers: *mut u16,
    ) -> usize;

    #[link_name = "parallel_moves_examine_5"]
    pub fn parallel_moves_examine(
        job: *const u8,
        job_len: usize,
        patch: u32,
        words: *const u64,
        words_len: usize,
        refusal: *mut u8,
        target: *mut u16,
        function: *mut u16,
        free_units: *mut u8,
        entries: *mut u16,
        writers: *mut u16,
        ties: *mut u16,
        cells: *mut u16,
        start: *mut u16,
        held: *mut u16,
        asked: *mut u16,
    ) -> u8;
}
