//! Jobs written: `job_writer_c`.

use super::{Entries, Function, Opened, RegInfo, RegUnitSet, SparseMap, table};

/// The bytes of a job in the making.
type Work = [u8; 65_536];

unsafe extern "C" {
    #[link_name = "parallel_moves_write_5"]
    fn parallel_moves_write(
        numbers: *const u32,
        numbers_length: usize,
        bytes: *mut u8,
        bytes_length: usize,
        refusal: &mut u8,
        work: &mut Work,
        target: &mut RegInfo,
        function: &mut Function,
        available: &mut RegUnitSet,
        entries: &mut Entries,
        writers: &mut SparseMap,
    ) -> usize;

    #[link_name = "parallel_moves_write_opened_5"]
    fn parallel_moves_write_opened(
        target: &RegInfo,
        function: &Function,
        numbers: *const u32,
        numbers_length: usize,
        bytes: *mut u8,
        bytes_length: usize,
        refusal: &mut u8,
        work: &mut Work,
        read_target: &mut RegInfo,
        read_function: &mut Function,
        available: &mut RegUnitSet,
        entries: &mut Entries,
        writers: &mut SparseMap,
    ) -> usize;

    #[link_name = "parallel_moves_shipped_5"]
    fn parallel_moves_shipped(work: &mut Work, target: &mut RegInfo) -> usize;
}

/// The bytes that a job on the shipped target begins with.
pub(crate) fn shipped() -> Vec<u8> {
    let (mut work, mut target): (Box<Work>, Box<RegInfo>) = (table(), table());
    // SAFETY: both tables have the length that they are declared with and are borrowed
    // mutably, so that nothing else reads or writes them. The function keeps no pointer.
    let count = unsafe { parallel_moves_shipped(&mut work, &mut target) };
    work[..count].to_vec()
}

/// The tables of writing, which is apart from opened functions.
pub(crate) struct WriterTables {
    work: Box<Work>,
    target: Box<RegInfo>,
    function: Box<Function>,
    available: Box<RegUnitSet>,
    entries: Box<Entries>,
    writers: Box<SparseMap>,
}

impl WriterTables {
    pub(crate) fn new() -> Self {
        WriterTables {
            work: table(),
            target: table(),
            function: table(),
            available: table(),
            entries: table(),
            writers: table(),
        }
    }

    /// Writes the job of numbers to the front of `bytes`: how many bytes it has, and
    /// the refusal's number or 0. What the tables hold does not matter.
    pub(crate) fn write(&mut self, numbers: &[u32], bytes: &mut [u8]) -> (usize, u8) {
        let mut refusal = 0;
        // SAFETY: `numbers` and `bytes` are as long as the function is told, and
        // each table has the length that it is declared with. `bytes` and the tables
        // are borrowed mutably, so that nothing else reads or writes them. The
        // function keeps no pointer.
        let count = unsafe {
            parallel_moves_write(
                numbers.as_ptr(),
                numbers.len(),
                bytes.as_mut_ptr(),
                bytes.len(),
                &mut refusal,
                &mut self.work,
                &mut self.target,
                &mut self.function,
                &mut self.available,
                &mut self.entries,
                &mut self.writers,
            )
        };
        (count, refusal)
    }

    /// The same of a job of an opened target and function, whose numbers from the patch
    /// count on are given.
    pub(crate) fn write_opened(
        &mut self,
        opened: &Opened,
        numbers: &[u32],
        bytes: &mut [u8],
    ) -> (usize, u8) {
        let Opened(tables, _) = opened;
        let mut refusal = 0;
        // SAFETY: target and function are as `open` left them when it did not refuse:
        // `Tables` becomes `Opened` only there, and nothing else has them. For the rest as
        // in `write`.
        let count = unsafe {
            parallel_moves_write_opened(
                &tables.target,
                &tables.function,
                numbers.as_ptr(),
                numbers.len(),
                bytes.as_mut_ptr(),
                bytes.len(),
                &mut refusal,
                &mut self.work,
                &mut self.target,
                &mut self.function,
                &mut self.available,
                &mut self.entries,
                &mut self.writers,
            )
        };
        (count, refusal)
    }
}
