//! Jobs written from their numbers, or of an opened function.

use std::fmt;

use crate::builder::each_number_of;
use crate::parallel_moves::ParallelMoves;
use crate::patch::Patch;
use crate::refusal::Refusal;
use crate::sys::WriterTables;

/// A longer job is refused.
pub(crate) const MOST_BYTES: usize = 65_536;

/// The bytes of the job whose numbers these are, in the order of `docs/JOB.md`, each
/// in its shortest form.
///
/// A [`JobWriter`] does the same many times over without new memory, and a
/// [`JobBuilder`](crate::JobBuilder) makes the numbers.
///
/// # Errors
///
/// The number that reading these bytes to their end would give: 1 to 15 or 21, and 2
/// before all else for more than 65,536 bytes. Resolving is another matter: a job that
/// is written may still be refused by 17. Any numbers can be given.
///
/// ```
/// use parallel_moves::{Refusal, write};
///
/// // One register, no value, no slots, and a patch without entries.
/// let numbers = [
///     1, 1, 3, 0, 1, 1, 0, 0, 1, 0, 2, 0, 1, 1, 0, 1, 0, 0, 0, 1, 0, 1, 0, // target
///     0, 300, 0, // function
///     1, 0, 0, // patch
/// ];
/// let job = write(&numbers).unwrap();
/// assert_eq!(job.len(), numbers.len() + 1);
/// assert_eq!(job[23..27], [0, 172, 2, 0]);
/// assert_eq!(write(&numbers[1..]), Err(Refusal::NamesNothing));
/// ```
pub fn write(numbers: &[u32]) -> Result<Vec<u8>, Refusal> {
    JobWriter::new().write(numbers)
}

/// Writes jobs, from their numbers or of an opened function.
///
/// It owns the memory that the work is done in, about a third of a megabyte, and uses
/// it again from call to call. No call depends on the calls before it.
pub struct JobWriter {
    tables: WriterTables,
}

impl JobWriter {
    /// A writer with memory of its own, on the heap.
    #[must_use]
    pub fn new() -> Self {
        JobWriter {
            tables: WriterTables::new(),
        }
    }

    /// As [`write`](crate::write()).
    ///
    /// # Errors
    ///
    /// As [`write`](crate::write()).
    pub fn write(&mut self, numbers: &[u32]) -> Result<Vec<u8>, Refusal> {
        // Room for all of them, or as many as no job goes over.
        let mut bytes = vec![0; length(numbers).min(MOST_BYTES)];
        let count = self.write_into(numbers, &mut bytes)?;
        bytes.truncate(count);
        Ok(bytes)
    }

    /// Writes a job to the front of bytes of the caller's own: how many it has. The
    /// bytes past them are left alone, and all of them if the job is refused. 65,536
    /// are always enough.
    ///
    /// # Errors
    ///
    /// As [`write`](crate::write()), and after those [`Refusal::BytesTooFew`].
    pub fn write_into(&mut self, numbers: &[u32], bytes: &mut [u8]) -> Result<usize, Refusal> {
        let (count, number) = self.tables.write(numbers, bytes);
        match Refusal::of_number(number) {
            None => Ok(count),
            Some(refusal) => Err(refusal),
        }
    }

    /// As [`ParallelMoves::write_job`].
    ///
    /// # Errors
    ///
    /// As [`ParallelMoves::write_job`].
    pub fn write_job(
        &mut self,
        moves: &ParallelMoves,
        patches: &[Patch],
    ) -> Result<Vec<u8>, Refusal> {
        let mut numbers = Vec::new();
        each_number_of(patches, |number, _| numbers.push(number));
        let mut bytes = vec![0; MOST_BYTES];
        let tables = &mut self.tables;
        let (count, number) = tables.write_opened(&moves.tables, &numbers, &mut bytes);
        match Refusal::of_number(number) {
            None => {
                bytes.truncate(count);
                Ok(bytes)
            }
            Some(refusal) => Err(refusal),
        }
    }
}

impl ParallelMoves {
    /// The bytes of a job of this target and function, with these patches. The function
    /// stays as it is, and it does not matter what was resolved before: so the patches that
    /// it was given can be kept, and given again as a job. Moves that reading would drop or
    /// make a rebuild of are written as they are given. The number of kept evictions is no
    /// part of a job.
    ///
    /// A [`JobWriter`] does the same many times over without new memory.
    ///
    /// # Errors
    ///
    /// The number that reading these bytes to their end would give: 2, before all else for
    /// more than 65,536 bytes, then 3, 9 to 15 or 21; 2 for no patch or more than 1,024. Any
    /// patches can be given. Resolving is another matter, as of [`write`](crate::write()).
    ///
    /// ```
    /// use parallel_moves::{ParallelMoves, Patch, PhysReg, Refusal, Value};
    ///
    /// # fn main() -> Result<(), Refusal> {
    /// let job = std::fs::read("../examples/swap-full.job").unwrap();
    /// // All but its patch count and its patch.
    /// let moves = ParallelMoves::open(1, &job[..job.len() - 11])?;
    /// let [r0, r1] = [0, 1].map(PhysReg::new);
    /// let mut swap = Patch::new();
    /// swap.move_(r0, r1, Value::new(0)).move_(r1, r0, Value::new(1));
    /// assert_eq!(moves.write_job(&[swap.clone()])?, job);
    /// swap.move_(r0, r0, Value::new(0));
    /// assert_eq!(moves.write_job(&[swap]), Err(Refusal::SelfMove));
    /// assert_eq!(moves.write_job(&[]), Err(Refusal::NamesNothing));
    /// # Ok(())
    /// # }
    /// ```
    pub fn write_job(&self, patches: &[Patch]) -> Result<Vec<u8>, Refusal> {
        JobWriter::new().write_job(self, patches)
    }
}

impl Default for JobWriter {
    fn default() -> Self {
        JobWriter::new()
    }
}

impl fmt::Debug for JobWriter {
    fn fmt(&self, f: &mut fmt::Formatter<'_>) -> fmt::Result {
        f.debug_struct("JobWriter").finish_non_exhaustive()
    }
}

/// How many bytes numbers have in their shortest form: one for each seven bits.
pub(crate) fn length(numbers: &[u32]) -> usize {
    let groups = |number: u32| number.checked_ilog2().map_or(1, |last| last / 7 + 1);
    numbers.iter().map(|&number| groups(number) as usize).sum()
}

#[cfg(test)]
mod tests {
    use super::length;

    #[test]
    fn each_number_has_its_bytes() {
        let numbers = [0, 1, 127, 128, 16_383, 16_384, 1 << 21, 1 << 28, u32::MAX];
        let lengths = numbers.map(|number| length(&[number]));
        assert_eq!(lengths, [1, 1, 1, 2, 2, 3, 4, 5, 5]);
        assert_eq!(length(&numbers), 24);
        assert_eq!(length(&[(1 << 21) - 1, (1 << 28) - 1]), 7);
    }
}
