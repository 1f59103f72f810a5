//! Reading alone, to a job's end (request 02 a): "A job the reader would refuse, its
//! length included, gets the reader's number; 16 and 17 belong to resolving." No patch is
//! resolved, so reading goes on where resolving would end with 17.

use crate::answer::{LEFT_OVER, MOST_BYTES, MOST_PATCHES};
use crate::number::{self, NAMES_NOTHING, Reader, Refused};
use crate::patch::Patch;
use crate::target::Target;
use crate::values::Values;

/// What was read of a job that is taken.
#[derive(Clone, Copy, Default, PartialEq, Eq, Debug)]
pub struct Read {
    pub patches: usize,
    pub entries: usize,
}

/// Reads a job to its end, or to the number that refuses it.
pub fn read(job: &[u8]) -> Result<Read, Refused> {
    if job.len() > MOST_BYTES {
        return Err(NAMES_NOTHING);
    }
    let mut reader = Reader::new(job);
    let target = Target::read(&mut reader)?;
    let values = Values::read(&mut reader, &target)?;
    read_patches(&mut reader, &target, &values)
}

/// Reads what stands behind a function in a job, the patch count first, to the job's end.
pub fn read_patches(
    reader: &mut Reader<'_>,
    target: &Target,
    values: &Values,
) -> Result<Read, Refused> {
    let mut read = Read::default();
    for _ in 0..reader.within(1, MOST_PATCHES)? {
        let patch = Patch::read(reader, target, values)?;
        read.patches += 1;
        read.entries += patch.entries.len();
    }
    match reader.at_end() {
        true => Ok(read),
        false => Err(LEFT_OVER),
    }
}

/// The target and the function that a job begins with, if they are taken.
pub fn beginning(job: &[u8]) -> Option<&[u8]> {
    let mut reader = Reader::new(job);
    let target = Target::read(&mut reader).ok()?;
    Values::read(&mut reader, &target).ok()?;
    Some(&job[..reader.place()])
}

/// The numbers that bytes begin with, and whether they are all of them.
pub fn numbers(job: &[u8]) -> (Vec<u32>, bool) {
    let mut reader = Reader::new(job);
    let mut numbers = Vec::new();
    while !reader.at_end() {
        match reader.number() {
            Ok(number) => numbers.push(number),
            Err(_) => return (numbers, false),
        }
    }
    (numbers, true)
}

/// The bytes of numbers, each in its shortest form.
pub fn bytes(numbers: &[u32]) -> Vec<u8> {
    let mut bytes = Vec::new();
    for &number in numbers {
        number::put(&mut bytes, number);
    }
    bytes
}
