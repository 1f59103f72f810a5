//! A job's bytes, taken apart.

use std::error::Error;
use std::fmt;
use std::ops::Range;

use crate::builder::{
    Bank, Class, FunctionBuilder, JobBuilder, Part, Register, RematCost, TargetBuilder, ValueInfo,
};
use crate::entity::{PhysReg, RegBank, RegClass, RegUnit, Value};
use crate::patch::Patch;
use crate::refusal::Refusal;
use crate::writer::MOST_BYTES;

/// Where in a job's bytes something is.
#[derive(Clone, Copy, Debug, PartialEq, Eq)]
pub struct Location {
    byte: usize,
    part: Part,
}

impl Location {
    pub(crate) fn new(byte: usize, part: Part) -> Self {
        Location { byte, part }
    }

    /// The byte, counted from 0.
    #[must_use]
    pub fn byte(self) -> usize {
        self.byte
    }

    /// The part of the job.
    #[must_use]
    pub fn part(self) -> Part {
        self.part
    }
}

/// Prints the byte and the part.
impl fmt::Display for Location {
    fn fmt(&self, f: &mut fmt::Formatter<'_>) -> fmt::Result {
        write!(f, "byte {}: {}", self.byte, self.part)
    }
}

/// Why bytes have no text.
#[derive(Clone, Copy, Debug, PartialEq, Eq)]
pub struct NoText {
    location: Location,
    refusal: Refusal,
}

impl NoText {
    /// Where the number begins that cannot be told.
    #[must_use]
    pub fn location(self) -> Location {
        self.location
    }

    /// The byte, counted from 0, at which it begins.
    #[must_use]
    pub fn byte(self) -> usize {
        self.location.byte
    }

    /// Why.
    pub fn refusal(self) -> Refusal {
        self.refusal
    }
}

/// Prints the byte, the part, and the refusal.
impl fmt::Display for NoText {
    fn fmt(&self, f: &mut fmt::Formatter<'_>) -> fmt::Result {
        write!(f, "{}: {}", self.location, self.refusal)
    }
}

impl Error for NoText {}

impl JobBuilder {
    /// Takes a job's bytes apart. It need not be one that is accepted.
    ///
    /// # Errors
    ///
    /// As [`text::from_bytes`](crate::text::from_bytes).
    pub fn from_bytes(job: &[u8]) -> Result<Self, NoText> {
        let Reading { job, end, .. } = Reading::of(job);
        end.map(|()| job)
    }
}

/// How many patches a job's bytes say that it has. The patches themselves are not read, and
/// nothing is tested: it need not be a job that is accepted.
///
/// # Errors
///
/// As [`text::from_bytes`](crate::text::from_bytes), up to that number.
///
/// ```
/// let job = std::fs::read("../examples/swap-full.job").unwrap();
/// assert_eq!(parallel_moves::patch_count(&job), Ok(1));
/// assert!(parallel_moves::patch_count(&job[..20]).is_err());
/// ```
pub fn patch_count(job: &[u8]) -> Result<u32, NoText> {
    Reader::new(job).opening(&mut JobBuilder::new())
}

/// The target that bytes begin with.
pub(crate) fn target(bytes: &[u8]) -> Result<TargetBuilder, NoText> {
    let mut target = TargetBuilder::default();
    Reader::new(bytes).target(&mut target).map(|()| target)
}

/// What was read of a job's bytes.
pub(crate) struct Reading {
    /// All parts that were read to their end.
    pub job: JobBuilder,
    /// Each number that was read: the part that it says something of, and where it begins
    /// and ends.
    pub numbers: Vec<(Part, Range<usize>)>,
    /// Why it was not read further.
    pub end: Result<(), NoText>,
}

impl Reading {
    pub(crate) fn of(bytes: &[u8]) -> Reading {
        let mut job = JobBuilder::new();
        let mut reader = Reader::new(bytes);
        let end = reader.job(&mut job);
        let numbers = reader.numbers;
        Reading { job, numbers, end }
    }
}

/// Tells a job's numbers apart.
struct Reader<'a> {
    bytes: &'a [u8],
    next: usize,
    /// What is being read.
    part: Part,
    numbers: Vec<(Part, Range<usize>)>,
}

impl<'a> Reader<'a> {
    fn new(bytes: &'a [u8]) -> Self {
        Reader {
            bytes,
            next: 0,
            part: Part::Job,
            numbers: Vec::new(),
        }
    }

    fn refused(&self, byte: usize, refusal: Refusal) -> NoText {
        let location = Location::new(byte, self.part);
        NoText { location, refusal }
    }

    /// A number in its shortest form: seven bits a byte, the low ones first, the top bit
    /// set on all but the last.
    fn number(&mut self) -> Result<u32, NoText> {
        let start = self.next;
        let none = self.refused(start, Refusal::NotANumber);
        let mut number = 0_u64;
        for group in 0..5 {
            let byte = *self.bytes.get(self.next).ok_or(none)?;
            self.next += 1;
            number |= u64::from(byte % 128) << (7 * group);
            if byte < 128 {
                let shortest = byte != 0 || group == 0;
                let number = u32::try_from(number).ok().filter(|_| shortest);
                let number = number.ok_or(none)?;
                self.numbers.push((self.part, start..self.next));
                return Ok(number);
            }
        }
        Err(none)
    }

    /// A number of a part.
    fn number_of(&mut self, part: Part) -> Result<u32, NoText> {
        self.part = part;
        self.number()
    }

    /// A number below a limit.
    fn below(&mut self, limit: u32) -> Result<u32, NoText> {
        let at = self.next;
        let number = self.number()?;
        match number < limit {
            true => Ok(number),
            false => Err(self.refused(at, Refusal::NamesNothing)),
        }
    }

    fn flag(&mut self) -> Result<bool, NoText> {
        Ok(self.below(2)? == 1)
    }

    fn numbers<T>(&mut self, of: fn(u32) -> T) -> Result<Vec<T>, NoText> {
        let count = self.number()?;
        (0..count).map(|_| self.number().map(of)).collect()
    }

    /// The target, the function and the number of patches.
    fn opening(&mut self, job: &mut JobBuilder) -> Result<u32, NoText> {
        if self.bytes.len() > MOST_BYTES {
            return Err(self.refused(0, Refusal::NamesNothing));
        }
        self.target(&mut job.target)?;
        self.function(&mut job.function)?;
        self.number_of(Part::Patches)
    }

    fn job(&mut self, job: &mut JobBuilder) -> Result<(), NoText> {
        let patches = self.opening(job)?;
        for number in 1..=patches as usize {
            let patch = self.patch(number)?;
            job.patches.push(patch);
        }
        self.part = Part::Job;
        match self.next < self.bytes.len() {
            true => Err(self.refused(self.next, Refusal::LeftOver)),
            false => Ok(()),
        }
    }

    fn target(&mut self, target: &mut TargetBuilder) -> Result<(), NoText> {
        target.units(self.number_of(Part::Units)?);
        for index in 0..self.number_of(Part::Banks)? {
            self.part = Part::Bank(RegBank(index));
            target.banks.push(Bank {
                size_log2: self.number()?,
                top_level_class: Some(RegClass(self.number()?)),
                stack_class: Some(RegClass(self.number()?)),
            });
        }
        for index in 0..self.number_of(Part::Registers)? {
            self.part = Part::Register(PhysReg(index));
            target.registers.push(Register {
                memory: self.flag()?,
                bank: RegBank(self.number()?),
                units: self.numbers(RegUnit)?,
            });
        }
        for index in 0..self.number_of(Part::Classes)? {
            self.part = Part::Class(RegClass(index));
            target.classes.push(Class {
                bank: Some(RegBank(self.number()?)),
                slots: self.flag()?,
                members: self.numbers(PhysReg)?,
                order: self.numbers(PhysReg)?,
            });
        }
        Ok(())
    }

    fn function(&mut self, function: &mut FunctionBuilder) -> Result<(), NoText> {
        let values = self.number_of(Part::Values)?;
        function.slots = self.number_of(Part::Slots)?;
        function.emergency_slots = self.number_of(Part::EmergencySlots)?;
        for index in 0..values {
            self.part = Part::Value(Value(index));
            let bank = RegBank(self.number()?);
            let cost = match self.below(3)? {
                0 => None,
                1 => Some(RematCost::CheaperThanMove),
                _ => Some(RematCost::CheaperThanLoad),
            };
            let remat = match cost {
                Some(cost) => Some((cost, RegClass(self.number()?))),
                None => None,
            };
            function.values.push(ValueInfo { bank, remat });
        }
        Ok(())
    }

    fn patch(&mut self, number: usize) -> Result<Patch, NoText> {
        let mut patch = Patch::empty();
        for _ in 0..self.number_of(Part::Patch(number))? {
            let unit = RegUnit(self.number_of(Part::Patch(number))?);
            // Its part has its number, which is known only now.
            self.part = Part::FreeUnit(number, unit);
            if let Some((part, _)) = self.numbers.last_mut() {
                *part = self.part;
            }
            patch.free.push(unit);
        }
        for entry in 1..=self.number_of(Part::Patch(number))? as usize {
            self.part = Part::Entry(number, entry);
            let kind = self.below(2)?;
            let (first, second) = (self.number()?, self.number()?);
            let third = if kind == 0 { self.number()? } else { 0 };
            patch.entries.push([kind, first, second, third]);
        }
        Ok(patch)
    }
}
