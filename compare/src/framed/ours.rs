//! Ours: the static library, with the memory that it is lent, and faults that must be found.

use judge::calls::{Call, MOST_EDITS};
use judge::sharing::Given;

/// The frame's cells: the counter, and where the shares begin.
const COUNTER: usize = 2;
const SHARES: usize = 4;

#[link(name = "frame_c", kind = "static")]
unsafe extern "C" {
    #[link_name = "parallel_moves_frame_open_5"]
    fn frame_open(frame: *mut u16, limit: u32, shares: *const u32, shares_len: usize) -> u8;

    #[link_name = "parallel_moves_frame_formula_5"]
    fn frame_formula(
        frame: *mut u16,
        formula: usize,
        kept_evictions: u32,
        bytes: *const u8,
        bytes_len: usize,
        target: *mut u16,
        function: *mut u16,
        cache: *mut u16,
    ) -> u8;

    #[link_name = "parallel_moves_frame_resolve_5"]
    fn frame_resolve(
        frame: *mut u16,
        formula: usize,
        target: *const u16,
        function: *const u16,
        free_units: *const u32,
        free_units_len: usize,
        numbers: *const u32,
        numbers_len: usize,
        cache: *mut u16,
        list: *mut u64,
        list_len: usize,
        refusal: *mut u8,
        position: *mut u16,
        entries: *mut u16,
        writers: *mut u16,
        available: *mut u8,
        sources: *mut u8,
        edits: *mut u64,
        slots: *mut u16,
        diverted: *mut u16,
        marks: *mut u8,
        carried: *mut u16,
    ) -> usize;

    #[link_name = "parallel_moves_frame_ask_5"]
    fn frame_ask(
        frame: *const u16,
        formula: usize,
        target: *const u16,
        function: *const u16,
        free_units: *const u32,
        free_units_len: usize,
        numbers: *const u32,
        numbers_len: usize,
        cache: *const u16,
        list: *mut u64,
        list_len: usize,
        refusal: *mut u8,
        to: *mut u16,
        made: *mut u16,
        position: *mut u16,
        stamp: *mut u64,
        counter: *mut u16,
        entries: *mut u16,
        writers: *mut u16,
        available: *mut u8,
        sources: *mut u8,
        edits: *mut u64,
        slots: *mut u16,
        diverted: *mut u16,
        marks: *mut u8,
        carried: *mut u16,
    ) -> usize;

    #[link_name = "parallel_moves_frame_take_5"]
    fn frame_take(
        frame: *mut u16,
        formula: usize,
        to: u16,
        stamp: u64,
        counter: u16,
        slots: *const u16,
        cache: *mut u16,
    ) -> u8;

    #[link_name = "parallel_moves_frame_made_5"]
    fn frame_made(frame: *const u16, formula: usize) -> u16;
}

/// A fault that must be found.
#[derive(Clone, Copy, PartialEq)]
pub enum Fault {
    None,
    /// What the others lack of their shares does not count.
    Lack,
    /// The frame's counter is told as a formula's slots made.
    Made,
    /// A take does not heed the counter.
    Counter,
}

/// What an asking left to take.
pub struct Preview {
    slots: Vec<u16>,
    to: u16,
    pub made: u16,
    position: u16,
    stamp: u64,
    counter: u16,
}

/// A formula's tables.
pub struct Tables {
    target: Vec<u16>,
    function: Vec<u16>,
    pub cache: Vec<u16>,
}

/// Ours, with memory that is used again from call to call.
pub struct Ours {
    fault: Fault,
    pub frame: Vec<u16>,
    pub formulas: Vec<Tables>,
    list: Vec<u64>,
    entries: Vec<u16>,
    writers: Vec<u16>,
    available: Vec<u8>,
    sources: Vec<u8>,
    edits: Vec<u64>,
    slots: Vec<u16>,
    diverted: Vec<u16>,
    marks: Vec<u8>,
    carried: Vec<u16>,
}

fn shorts(length: usize) -> Vec<u16> {
    vec![0xa5a5; length]
}

/// The words of the edits and the position, or the refusal.
pub type Outcome = Result<(Vec<u64>, usize), u8>;

impl Ours {
    pub fn new(fault: Fault) -> Self {
        Ours {
            fault,
            frame: shorts(37),
            formulas: Vec::new(),
            list: vec![0; MOST_EDITS],
            entries: shorts(1541),
            writers: shorts(6657),
            available: vec![1; 512],
            sources: vec![1; 512],
            edits: vec![u64::MAX / 3; 1025],
            slots: shorts(32_835),
            diverted: shorts(12_288),
            marks: vec![0xa5; 129],
            carried: shorts(2049),
        }
    }

    pub fn open(&mut self, limit: u32, shares: &[u32]) -> u8 {
        self.formulas.clear();
        // SAFETY: the table is as long as the function says.
        unsafe {
            frame_open(
                self.frame.as_mut_ptr(),
                limit,
                shares.as_ptr(),
                shares.len(),
            )
        }
    }

    pub fn open_formula(&mut self, given: &Given) -> u8 {
        let mut tables = Tables {
            target: shorts(107_520),
            function: shorts(16_388),
            cache: shorts(65_600),
        };
        // SAFETY: each array is as long as the function says, none lies on another, and the
        // frame is as it was opened and the formulas before left it.
        let refusal = unsafe {
            frame_formula(
                self.frame.as_mut_ptr(),
                self.formulas.len(),
                given.kept_evictions,
                given.bytes.as_ptr(),
                given.bytes.len(),
                tables.target.as_mut_ptr(),
                tables.function.as_mut_ptr(),
                tables.cache.as_mut_ptr(),
            )
        };
        if refusal == 0 {
            self.formulas.push(tables);
        }
        refusal
    }

    pub fn made(&self, formula: usize) -> usize {
        if self.fault == Fault::Made {
            return self.frame[COUNTER].into();
        }
        // SAFETY: the table is as long as the function says.
        unsafe { frame_made(self.frame.as_ptr(), formula) }.into()
    }

    /// The frame as a call of a formula gets it, which is a fault's at times.
    fn given_frame(&self, formula: usize) -> Vec<u16> {
        let mut frame = self.frame.clone();
        if self.fault == Fault::Lack {
            for other in (0..self.formulas.len()).filter(|&other| other != formula) {
                frame[SHARES + other] = 0;
            }
        }
        frame
    }

    pub fn resolve(&mut self, formula: usize, call: &Call, room: usize) -> Outcome {
        let mut frame = self.given_frame(formula);
        let tables = &mut self.formulas[formula];
        let (mut refusal, mut position) = (0x5a, 0x5a5a);
        // SAFETY: each array is as long as the function says, the flags are 0 or 1, and none lies
        // on another. Frame and tables are as their last calls left them, but for a fault.
        let count = unsafe {
            frame_resolve(
                frame.as_mut_ptr(),
                formula,
                tables.target.as_ptr(),
                tables.function.as_ptr(),
                call.free.as_ptr(),
                call.free.len(),
                call.numbers.as_ptr(),
                call.numbers.len(),
                tables.cache.as_mut_ptr(),
                self.list.as_mut_ptr(),
                room.min(MOST_EDITS),
                &mut refusal,
                &mut position,
                self.entries.as_mut_ptr(),
                self.writers.as_mut_ptr(),
                self.available.as_mut_ptr(),
                self.sources.as_mut_ptr(),
                self.edits.as_mut_ptr(),
                self.slots.as_mut_ptr(),
                self.diverted.as_mut_ptr(),
                self.marks.as_mut_ptr(),
                self.carried.as_mut_ptr(),
            )
        };
        if self.fault == Fault::Lack {
            frame[SHARES..SHARES + 16].copy_from_slice(&self.frame[SHARES..SHARES + 16]);
        }
        self.frame = frame;
        match refusal {
            0 => Ok((self.list[..count].to_vec(), position.into())),
            number => Err(number),
        }
    }

    pub fn ask(
        &mut self,
        formula: usize,
        call: &Call,
        room: usize,
    ) -> Result<(Outcome, Preview), u8> {
        let frame = self.given_frame(formula);
        let tables = &self.formulas[formula];
        let mut refusal = 0x5a;
        let mut preview = Preview {
            slots: shorts(32_835),
            to: 0,
            made: 0,
            position: 0,
            stamp: 0,
            counter: 0,
        };
        // SAFETY: as in `resolve`.
        let count = unsafe {
            frame_ask(
                frame.as_ptr(),
                formula,
                tables.target.as_ptr(),
                tables.function.as_ptr(),
                call.free.as_ptr(),
                call.free.len(),
                call.numbers.as_ptr(),
                call.numbers.len(),
                tables.cache.as_ptr(),
                self.list.as_mut_ptr(),
                room.min(MOST_EDITS),
                &mut refusal,
                &mut preview.to,
                &mut preview.made,
                &mut preview.position,
                &mut preview.stamp,
                &mut preview.counter,
                self.entries.as_mut_ptr(),
                self.writers.as_mut_ptr(),
                self.available.as_mut_ptr(),
                self.sources.as_mut_ptr(),
                self.edits.as_mut_ptr(),
                preview.slots.as_mut_ptr(),
                self.diverted.as_mut_ptr(),
                self.marks.as_mut_ptr(),
                self.carried.as_mut_ptr(),
            )
        };
        match refusal {
            0 => {
                let outcome = Ok((self.list[..count].to_vec(), preview.position.into()));
                Ok((outcome, preview))
            }
            number => Err(number),
        }
    }

    pub fn take(&mut self, formula: usize, preview: &Preview) -> u8 {
        let counter = match self.fault {
            Fault::Counter => self.frame[COUNTER],
            _ => preview.counter,
        };
        // What would lead the counter back is no call at all.
        if preview.to < self.frame[COUNTER] && counter != preview.counter {
            return 0;
        }
        // SAFETY: as in `resolve`; the preview is as `ask` left it, of this formula.
        unsafe {
            frame_take(
                self.frame.as_mut_ptr(),
                formula,
                preview.to,
                preview.stamp,
                counter,
                preview.slots.as_ptr(),
                self.formulas[formula].cache.as_mut_ptr(),
            )
        }
    }
}
