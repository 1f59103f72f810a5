//! The functions of the static library, or of the stub in its place.

use judge::prices::Prices;

use super::TALLY;

#[cfg(stub)]
extern crate stub;

#[cfg_attr(not(stub), link(name = "parallel_moves_c", kind = "static"))]
#[cfg_attr(not(stub), link(name = "calls_c", kind = "static"))]
#[cfg_attr(not(stub), link(name = "asking_c", kind = "static"))]
#[cfg_attr(not(stub), link(name = "groups_c", kind = "static"))]
#[cfg_attr(not(stub), link(name = "answer_groups_c", kind = "static"))]
#[cfg_attr(not(stub), link(name = "frame_c", kind = "static"))]
#[cfg_attr(not(stub), link(name = "job_writer_c", kind = "static"))]
#[cfg_attr(not(stub), link(name = "price_c", kind = "static"))]
#[cfg_attr(not(stub), link(name = "trying_c", kind = "static"))]
#[cfg_attr(not(stub), link(name = "examine_c", kind = "static"))]
unsafe extern "C" {
    #[link_name = "parallel_moves_open_5"]
    pub fn parallel_moves_open(
        kept_evictions: u32,
        bytes: *const u8,
        bytes_len: usize,
        target: *mut u16,
        function: *mut u16,
        cache: *mut u16,
    ) -> u8;

    #[link_name = "parallel_moves_resolve_5"]
    pub fn parallel_moves_resolve(
        target: *const u16,
        function: *const u16,
        free_units: *const u32,
        free_units_len: usize,
        numbers: *const u32,
        numbers_len: usize,
        cache: *mut u16,
        list: *mut u64,
        list_len: usize,
        refusal: *mut u8,
        position: *mut u16,
        entries: *mut u16,
        writers: *mut u16,
        available: *mut u8,
        sources: *mut u8,
        edits: *mut u64,
        slots: *mut u16,
        diverted: *mut u16,
        marks: *mut u8,
        carried: *mut u16,
    ) -> usize;

    #[link_name = "parallel_moves_made_5"]
    pub fn parallel_moves_made(cache: *const u16) -> u16;

    #[link_name = "parallel_moves_enough_slots_5"]
    pub fn parallel_moves_enough_slots(
        kept_evictions: u32,
        bytes: *const u8,
        bytes_len: usize,
        refusal: *mut u8,
        target: *mut u16,
        function: *mut u16,
    ) -> u16;

    #[link_name = "parallel_moves_answer_5"]
    pub fn parallel_moves_answer(
        kept_evictions: u32,
        job: *const u8,
        job_len: usize,
        words: *mut u64,
        words_len: usize,
        refusal: *mut u8,
        target: *mut u16,
        function: *mut u16,
        cache: *mut u16,
        free_units: *mut u8,
        entries: *mut u16,
        writers: *mut u16,
        available: *mut u8,
        sources: *mut u8,
        edits: *mut u64,
        slots: *mut u16,
        diverted: *mut u16,
        marks: *mut u8,
        carried: *mut u16,
    ) -> usize;

    #[link_name = "parallel_moves_price_5"]
    pub fn parallel_moves_price(
        words: *const u64,
        words_len: usize,
        patch: usize,
        prices: &Prices,
        runs: u64,
        total: &mut u64,
        runs_as_double: &mut f64,
        product: &mut f64,
    ) -> u8;

    #[link_name = "parallel_moves_price_edits_5"]
    pub fn parallel_moves_price_edits(
        list: *const u64,
        list_len: usize,
        prices: &Prices,
        runs: u64,
        total: &mut u64,
        runs_as_double: &mut f64,
        product: &mut f64,
    ) -> u8;

    #[link_name = "parallel_moves_cheaper_5"]
    pub fn parallel_moves_cheaper(
        first: *const u64,
        first_len: usize,
        second: *const u64,
        second_len: usize,
        prices: &Prices,
    ) -> u8;

    #[link_name = "parallel_moves_try_5"]
    pub fn parallel_moves_try(
        job: *const u8,
        job_len: usize,
        prices: &Prices,
        seed: u32,
        patches: u32,
        one: &mut [u64; TALLY],
        two: &mut [u64; TALLY],
        target: *mut u16,
        function: *mut u16,
        cache: *mut u16,
        entries: *mut u16,
        writers: *mut u16,
        available: *mut u8,
        sources: *mut u8,
        edits: *mut u64,
        slots: *mut u16,
        diverted: *mut u16,
        marks: *mut u8,
        carried: *mut u16,
    ) -> u8;

    #[link_name = "parallel_moves_text_5"]
    pub fn parallel_moves_text(
        words: *const u64,
        words_len: usize,
        refusal: u8,
        text: *mut u8,
        text_len: usize,
    ) -> usize;

    #[link_name = "parallel_moves_write_5"]
    pub fn parallel_moves_write(
        numbers: *const u32,
        numbers_len: usize,
        bytes: *mut u8,
        bytes_len: usize,
        refusal: *mut u8,
        work: *mut u8,
        target: *mut u16,
        function: *mut u16,
        available: *mut u8,
        entries: *mut u16,
        writers: *mut u16,
    ) -> usize;
}
