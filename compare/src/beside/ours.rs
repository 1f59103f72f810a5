//! Ours: the static library, with the memory that it is lent.

#[path = "ours/lent.rs"]
mod lent;
#[path = "ours/library.rs"]
mod library;

use std::ops::Range;

use judge::answer::{MOST_BYTES, MOST_PATCHES};
use judge::calls::MOST_EDITS;
use judge::prices::Asked;
use judge::tries;
use lent::{Lent, WATCHED};
use library::{
    parallel_moves_answer, parallel_moves_cheaper, parallel_moves_enough_slots,
    parallel_moves_made, parallel_moves_open, parallel_moves_price, parallel_moves_price_edits,
    parallel_moves_resolve, parallel_moves_text, parallel_moves_try, parallel_moves_write,
};

/// The words of the longest answer: a move has four bytes of a job and at most
/// 8 edits, a rebuild three and 5.
const MOST_WORDS: usize = 2 * MOST_BYTES + MOST_PATCHES;
/// A line of an edit has at most 19 bytes, one of a patch or refusal at most 36.
const MOST_TEXT: usize = 19 * 2 * MOST_BYTES + 36 * (MOST_PATCHES + 1);

/// How many cells a tally has, and what is found in one that is not set.
pub const TALLY: usize = 263;
pub const NOT_TALLIED: u64 = u64::MAX / 7;

/// What an asking for a price gives.
#[derive(Clone, Copy, Debug, PartialEq)]
pub struct Record {
    pub refusal: u8,
    pub total: u64,
    pub runs: f64,
    pub product: f64,
}

impl Record {
    /// A refusal that sets nothing.
    pub fn untouched(refusal: u8) -> Record {
        Record {
            refusal,
            total: 0x5a5a,
            runs: -0.25,
            product: -0.75,
        }
    }
}

/// What a position is before a call.
pub const NO_POSITION: u16 = 0x5a5a;

/// What a lent byte is before a job is written.
fn not_written(at: usize) -> u8 {
    (at % 253) as u8 ^ 0x96
}

/// Ours, with memory that is used again for each job.
pub struct Ours {
    words: Lent<u64>,
    text: Lent<u8>,
    target: Lent<u16>,
    function: Lent<u16>,
    cache: Lent<u16>,
    list: Lent<u64>,
    /// A flag is 0 or 1 in one byte.
    free_units: Lent<u8>,
    entries: Lent<u16>,
    writers: Lent<u16>,
    available: Lent<u8>,
    sources: Lent<u8>,
    edits: Lent<u64>,
    slots: Lent<u16>,
    diverted: Lent<u16>,
    marks: Lent<u8>,
    carried: Lent<u16>,
    /// What the list was last filled with.
    filled: u64,
    /// Jobs that are written, and what is worked in for them.
    written: Vec<u8>,
    work: Lent<u8>,
}

impl Ours {
    pub fn new() -> Self {
        let shorts = |len| Lent::new(len, [0xa5a5, 3]);
        let longs = |len| Lent::new(len, [u64::MAX / 3, 9]);
        let flags = |len| Lent::new(len, [0, 1]);
        Ours {
            words: longs(MOST_WORDS),
            text: Lent::new(MOST_TEXT, [b'?', b'!']),
            target: shorts(107_520),
            function: shorts(16_388),
            cache: shorts(65_600),
            list: longs(MOST_EDITS),
            free_units: flags(512),
            entries: shorts(1541),
            writers: shorts(6657),
            available: flags(512),
            sources: flags(512),
            edits: longs(1025),
            slots: shorts(32_835),
            diverted: shorts(12_288),
            marks: Lent::new(129, [0xa5, 1]),
            carried: shorts(2049),
            filled: 0,
            written: Vec::new(),
            work: Lent::new(MOST_BYTES, [0x5a, 0xa5]),
        }
    }

    /// How many words a job's answer has at a setting, and the refusal, when it is
    /// lent `room` words, or as many as can be needed.
    pub fn answer(&mut self, kept_evictions: u32, job: &[u8], room: Option<usize>) -> (usize, u8) {
        let room = room.unwrap_or(MOST_WORDS).min(MOST_WORDS);
        let mut refusal = 0x5a;
        // SAFETY: each array is as long as the function says, the flags are 0
        // or 1, and none lies on another.
        let count = unsafe {
            parallel_moves_answer(
                kept_evictions,
                job.as_ptr(),
                job.len(),
                self.words.pointer(),
                room,
                &mut refusal,
                self.target.pointer(),
                self.function.pointer(),
                self.cache.pointer(),
                self.free_units.pointer(),
                self.entries.pointer(),
                self.writers.pointer(),
                self.available.pointer(),
                self.sources.pointer(),
                self.edits.pointer(),
                self.slots.pointer(),
                self.diverted.pointer(),
                self.marks.pointer(),
                self.carried.pointer(),
            )
        };
        (count, refusal)
    }

    /// Opens a function at a setting: the refusal, or 0.
    pub fn open(&mut self, kept_evictions: u32, bytes: &[u8]) -> u8 {
        // SAFETY: each array is as long as the function says, and none lies on
        // another.
        unsafe {
            parallel_moves_open(
                kept_evictions,
                bytes.as_ptr(),
                bytes.len(),
                self.target.pointer(),
                self.function.pointer(),
                self.cache.pointer(),
            )
        }
    }

    /// The L to plan with for a function at a setting, and the refusal. A function
    /// that was opened before is open no longer.
    pub fn enough_slots(&mut self, kept_evictions: u32, bytes: &[u8]) -> (usize, u8) {
        let mut refusal = 0x5a;
        // SAFETY: each array is as long as the function says, and none lies on
        // another.
        let enough = unsafe {
            parallel_moves_enough_slots(
                kept_evictions,
                bytes.as_ptr(),
                bytes.len(),
                &mut refusal,
                self.target.pointer(),
                self.function.pointer(),
            )
        };
        (enough.into(), refusal)
    }

    /// Resolves a patch of the function that was opened last, into a list of
    /// `room` words: how many edits it has, the refusal, and the position,
    /// which is `NO_POSITION` if none is told.
    pub fn resolve(&mut self, free: &[u32], numbers: &[u32], room: usize) -> (usize, u8, u16) {
        let mut refusal = 0x5a;
        let mut position = NO_POSITION;
        // SAFETY: each array is as long as the function says, the flags are 0
        // or 1, and none lies on another. Target, function and cache are as
        // `open` and the last call left them.
        let count = unsafe {
            parallel_moves_resolve(
                self.target.pointer(),
                self.function.pointer(),
                free.as_ptr(),
                free.len(),
                numbers.as_ptr(),
                numbers.len(),
                self.cache.pointer(),
                self.list.pointer(),
                room.min(MOST_EDITS),
                &mut refusal,
                &mut position,
                self.entries.pointer(),
                self.writers.pointer(),
                self.available.pointer(),
                self.sources.pointer(),
                self.edits.pointer(),
                self.slots.pointer(),
                self.diverted.pointer(),
                self.marks.pointer(),
                self.carried.pointer(),
            )
        };
        (count, refusal, position)
    }

    /// How many emergency slots the function has.
    pub fn made(&mut self) -> usize {
        // SAFETY: the cache is as long as the function says.
        unsafe { parallel_moves_made(self.cache.pointer()) }.into()
    }

    /// Fills the list that edits are written to, with words that no call before
    /// saw there.
    pub fn fill_list(&mut self) {
        self.filled = self.filled.wrapping_add(0x9e37_79b9_7f4a_7c15);
        for (word, index) in self.list.all[..MOST_EDITS].iter_mut().zip(0..) {
            *word = self.filled ^ index;
        }
    }

    /// The list that edits are written to, and what lies past its end.
    pub fn list(&self) -> &[u64] {
        &self.list.all
    }

    /// The function's emergency slots, and what lies past the table's end.
    pub fn cache(&self) -> &[u16] {
        &self.cache.all
    }

    /// The target and the function, which no patch changes.
    pub fn opened(&self) -> [&[u16]; 2] {
        [&self.target.all, &self.function.all]
    }

    /// The first words of the last answer.
    pub fn words(&mut self, count: usize) -> Option<&mut [u64]> {
        self.words.all[..MOST_WORDS].get_mut(..count)
    }

    /// The text of the last answer's first `count` words, when it is lent
    /// `room` bytes, or as many as can be needed. `None` if there is no room.
    pub fn text(&mut self, count: usize, refusal: u8, room: Option<usize>) -> Option<&[u8]> {
        let room = room.unwrap_or(MOST_TEXT).min(MOST_TEXT);
        let count = count.min(MOST_WORDS);
        // SAFETY: words and text are as long as the function is told.
        let length = unsafe {
            let words = self.words.pointer();
            parallel_moves_text(words, count, refusal, self.text.pointer(), room)
        };
        if length == 0 {
            None
        } else {
            self.text.all[..MOST_TEXT].get(..length)
        }
    }

    /// Writes the job of numbers into so many lent bytes: how many it has, and the
    /// refusal. The tables are used again as they are.
    pub fn write(&mut self, numbers: &[u32], room: usize) -> (usize, u8) {
        let mut refusal = 0x5a;
        self.written.clear();
        self.written.extend((0..room + WATCHED).map(not_written));
        // SAFETY: each array is as long as the function says, the flags are 0 or 1, and
        // none lies on another.
        let count = unsafe {
            parallel_moves_write(
                numbers.as_ptr(),
                numbers.len(),
                self.written.as_mut_ptr(),
                room,
                &mut refusal,
                self.work.pointer(),
                self.target.pointer(),
                self.function.pointer(),
                self.available.pointer(),
                self.entries.pointer(),
                self.writers.pointer(),
            )
        };
        (count, refusal)
    }

    /// Spoils the last byte that was written, if there is one.
    pub fn spoil_written(&mut self, count: usize) -> bool {
        let last = self.written[..count].last_mut();
        last.map(|byte| *byte ^= 1).is_some()
    }

    /// The first of the bytes that were lent last.
    pub fn written(&self, count: usize) -> Option<&[u8]> {
        self.written.get(..count)
    }

    /// Whether they are as before from `count` on, and so is what lies past their end.
    pub fn is_left_alone(&self, count: usize) -> bool {
        let mut rest = self.written.iter().enumerate().skip(count);
        rest.all(|(at, &byte)| byte == not_written(at))
    }

    /// What the patch with a number costs among the last answer's first `count` words.
    pub fn price(&mut self, count: usize, patch: usize, asked: Asked) -> Record {
        let mut record = Record::untouched(0);
        let count = count.min(MOST_WORDS);
        // SAFETY: the words are as long as the function is told.
        record.refusal = unsafe {
            parallel_moves_price(
                self.words.pointer(),
                count,
                patch,
                &asked.prices,
                asked.runs,
                &mut record.total,
                &mut record.runs,
                &mut record.product,
            )
        };
        record
    }

    /// What `count` words of the last answer, from one on, cost as a patch's edits.
    pub fn price_edits(&mut self, from: usize, count: usize, asked: Asked) -> Record {
        let list = &self.words.all[..MOST_WORDS][from..from + count];
        let mut record = Record::untouched(0);
        // SAFETY: the list is as long as the function is told.
        record.refusal = unsafe {
            parallel_moves_price_edits(
                list.as_ptr(),
                list.len(),
                &asked.prices,
                asked.runs,
                &mut record.total,
                &mut record.runs,
                &mut record.product,
            )
        };
        record
    }

    /// Which of two parts of the last answer's words costs less: 1, 2 or 19.
    pub fn cheaper(&mut self, first: Range<usize>, second: Range<usize>, asked: Asked) -> u8 {
        let words = &self.words.all[..MOST_WORDS];
        let (first, second) = (&words[first], &words[second]);
        // SAFETY: the lists are as long as the function is told.
        unsafe {
            parallel_moves_cheaper(
                first.as_ptr(),
                first.len(),
                second.as_ptr(),
                second.len(),
                &asked.prices,
            )
        }
    }

    /// What is counted at each setting, and the refusal.
    pub fn try_settings(&mut self, job: &[u8], asked: tries::Asked) -> ([[u64; TALLY]; 2], u8) {
        let mut tallies = [[NOT_TALLIED; TALLY]; 2];
        let [one, two] = &mut tallies;
        let prices = asked.prices.map(|price| price as u32);
        // SAFETY: each array is as long as the function says, the flags are 0 or 1, and
        // none lies on another.
        let refusal = unsafe {
            parallel_moves_try(
                job.as_ptr(),
                job.len(),
                &prices,
                asked.seed as u32,
                asked.patches as u32,
                one,
                two,
                self.target.pointer(),
                self.function.pointer(),
                self.cache.pointer(),
                self.entries.pointer(),
                self.writers.pointer(),
                self.available.pointer(),
                self.sources.pointer(),
                self.edits.pointer(),
                self.slots.pointer(),
                self.diverted.pointer(),
                self.marks.pointer(),
                self.carried.pointer(),
            )
        };
        (tallies, refusal)
    }

    /// Whether nothing was written past the end of an array.
    pub fn kept_to_its_own(&self) -> bool {
        let shorts = [
            &self.target,
            &self.function,
            &self.cache,
            &self.entries,
            &self.writers,
            &self.slots,
            &self.diverted,
            &self.carried,
        ];
        let longs = [&self.words, &self.list, &self.edits];
        let bytes = [
            &self.work,
            &self.text,
            &self.free_units,
            &self.available,
            &self.sources,
            &self.marks,
        ];
        shorts.iter().all(|lent| lent.is_kept())
            && longs.iter().all(|lent| lent.is_kept())
            && bytes.iter().all(|lent| lent.is_kept())
    }
}
