//! Lists examined for a patch by its number, counted from 1 as patches are printed. The calls
//! that they stand for count from 0.

use crate::examine::{Fault, examine, examine_in, first_fault};
use crate::frame::Frame;
use crate::refusal::Refusal;

/// What the patch with a number is counted as from 0. No job has the one that 0 becomes.
fn from_zero(number: u32) -> u32 {
    number.wrapping_sub(1)
}

/// As [`examine`], of the patch with a number, counted from 1.
///
/// # Errors
///
/// As [`examine`]: [`Refusal::NamesNothing`] for a number that no patch of the job has, 0 too.
///
/// ```
/// use parallel_moves::{Edit, Refusal, examine_numbered, first_fault_numbered};
///
/// let job = std::fs::read("../examples/swap-full.job").unwrap();
/// let edits = ["S s0 r1", "M r1 r0 0", "L r0 s0"].map(|edit| edit.parse::<Edit>().unwrap());
/// let words = edits.map(|edit| edit.word());
/// assert_eq!(examine_numbered(&job, 1, &words), Ok(true));
/// assert_eq!(examine_numbered(&job, 0, &words), Err(Refusal::NamesNothing));
/// assert_eq!(examine_numbered(&job, 2, &words), Err(Refusal::NamesNothing));
/// let fault = first_fault_numbered(&job, 1, &words[..2]).unwrap();
/// assert_eq!(fault.to_string(), "in the end r0 does not hold value 1");
/// ```
pub fn examine_numbered(job: &[u8], number: u32, words: &[u64]) -> Result<bool, Refusal> {
    examine(job, from_zero(number), words)
}

/// As [`examine_in`], of the patch with a number, counted from 1.
///
/// # Errors
///
/// As [`examine_in`].
pub fn examine_numbered_in(
    limit: u32,
    job: &[u8],
    number: u32,
    words: &[u64],
) -> Result<bool, Refusal> {
    examine_in(limit, job, from_zero(number), words)
}

/// As [`first_fault`], of the patch with a number, counted from 1.
#[must_use]
pub fn first_fault_numbered(job: &[u8], number: u32, words: &[u64]) -> Option<Fault> {
    first_fault(job, from_zero(number), words)
}

impl Frame {
    /// As [`Frame::examine`], of the patch with a number, counted from 1.
    ///
    /// # Errors
    ///
    /// As [`Frame::examine`].
    pub fn examine_numbered(
        &self,
        job: &[u8],
        number: u32,
        words: &[u64],
    ) -> Result<bool, Refusal> {
        self.examine(job, from_zero(number), words)
    }
}

#[cfg(test)]
mod tests {
    use super::{examine_numbered, examine_numbered_in, first_fault_numbered};
    use crate::{
        Formula, Frame, JobBuilder, PhysReg, Refusal, RegBank, Resolver, TargetBuilder, examine,
        examine_in, first_fault,
    };

    /// A job of three patches on the VFP, the opening alone, and the words of each patch.
    fn three() -> (Vec<u8>, Vec<u8>, Vec<Vec<u64>>) {
        let mut job = JobBuilder::on(TargetBuilder::named("vfp").unwrap());
        let value = job.function().value(RegBank::new(0));
        for number in 0..3 {
            let [from, to] = [number, number + 1].map(PhysReg::new);
            job.patch().move_(from, to, value);
        }
        let (bytes, opening) = (job.bytes().unwrap(), job.target_and_function().unwrap());
        let answer = Resolver::new().answer(1, &bytes).unwrap();
        let words = (1..=3).map(|number| answer.patch(number).unwrap().edits().words().to_vec());
        let words = words.collect();
        (bytes, opening, words)
    }

    /// Each list is its own patch's and no other's, by either count.
    #[test]
    fn both_counts() {
        let (job, opening, lists) = three();
        let formula = Formula {
            kept_evictions: 1,
            target_and_function: &opening,
            share: 0,
        };
        let frame = Frame::open(5, &[formula]).unwrap();
        for (index, words) in lists.iter().enumerate() {
            for number in 0..5 {
                let expected = match number {
                    1..=3 => Ok(number as usize == index + 1),
                    _ => Err(Refusal::NamesNothing),
                };
                assert_eq!(examine_numbered(&job, number, words), expected);
                assert_eq!(examine_numbered_in(5, &job, number, words), expected);
                assert_eq!(frame.examine_numbered(&job, number, words), expected);
                let fault = first_fault_numbered(&job, number, words);
                assert_eq!(fault.is_some(), expected == Ok(false));
                if let Some(from_zero) = number.checked_sub(1) {
                    assert_eq!(examine(&job, from_zero, words), expected);
                    assert_eq!(examine_in(5, &job, from_zero, words), expected);
                    assert_eq!(first_fault(&job, from_zero, words), fault);
                }
            }
        }
        assert_eq!(
            examine_numbered_in(2049, &job, 1, &lists[0]),
            Err(Refusal::NamesNothing)
        );
    }
}
