//! The parts of a job, and which of them is refused.

use std::error::Error;
use std::fmt;

use crate::entity::{PhysReg, RegBank, RegClass, RegUnit, Value};
use crate::refusal::Refusal;

/// A part of a job. Patches and entries are counted from 1, as answers count patches.
#[derive(Clone, Copy, Debug, PartialEq, Eq, PartialOrd, Ord, Hash)]
#[non_exhaustive]
pub enum Part {
    /// The job as a whole.
    Job,
    /// How many units the target has.
    Units,
    /// How many banks.
    Banks,
    /// A bank.
    Bank(RegBank),
    /// How many registers.
    Registers,
    /// A register.
    Register(PhysReg),
    /// How many classes.
    Classes,
    /// A class.
    Class(RegClass),
    /// How many values the function has.
    Values,
    /// How many ordinary slots.
    Slots,
    /// How many emergency slots may be made.
    EmergencySlots,
    /// A value.
    Value(Value),
    /// How many patches the job has.
    Patches,
    /// A patch.
    Patch(usize),
    /// A unit that a patch calls free.
    FreeUnit(usize, RegUnit),
    /// An entry of a patch.
    Entry(usize, usize),
}

impl fmt::Display for Part {
    fn fmt(&self, f: &mut fmt::Formatter<'_>) -> fmt::Result {
        match *self {
            Part::Job => write!(f, "the job"),
            Part::Units => write!(f, "the number of units"),
            Part::Banks => write!(f, "the number of banks"),
            Part::Bank(bank) => write!(f, "bank {}", bank.0),
            Part::Registers => write!(f, "the number of registers"),
            Part::Register(register) => write!(f, "register {}", register.0),
            Part::Classes => write!(f, "the number of classes"),
            Part::Class(class) => write!(f, "class {}", class.0),
            Part::Values => write!(f, "the number of values"),
            Part::Slots => write!(f, "the number of slots"),
            Part::EmergencySlots => write!(f, "the number of emergency slots"),
            Part::Value(value) => write!(f, "value {}", value.0),
            Part::Patches => write!(f, "the number of patches"),
            Part::Patch(patch) => write!(f, "patch {patch}"),
            Part::FreeUnit(patch, unit) => write!(f, "patch {patch}, free unit {}", unit.0),
            Part::Entry(patch, entry) => write!(f, "patch {patch}, entry {entry}"),
        }
    }
}

/// Why a job is not written, and which part of it is refused.
#[derive(Clone, Copy, Debug, PartialEq, Eq)]
pub struct BuildError {
    pub(super) refusal: Refusal,
    pub(super) part: Part,
}

impl BuildError {
    /// Why it is refused.
    pub fn refusal(self) -> Refusal {
        self.refusal
    }

    /// The part at which it is.
    #[must_use]
    pub fn part(self) -> Part {
        self.part
    }
}

/// Prints the part, and the refusal with its cause in words.
impl fmt::Display for BuildError {
    fn fmt(&self, f: &mut fmt::Formatter<'_>) -> fmt::Result {
        write!(f, "{}: {}", self.part, self.refusal)
    }
}

impl Error for BuildError {}

impl From<BuildError> for Refusal {
    fn from(error: BuildError) -> Self {
        error.refusal
    }
}
