//! The machine of `docs/JOB.md`: what units and slots hold while edits are done.

use std::collections::HashMap;
use std::fmt;

use parallel_moves::{Allocation, AllocationKind, Edit, Edits, PhysReg, SpillSlot};

/// A place, by its number.
#[derive(Clone, Copy, Debug, PartialEq, Eq)]
pub enum Place {
    Register(u16),
    Slot(u16),
}

impl Place {
    pub fn code(self) -> u32 {
        match self {
            Place::Register(r) => 2 * u32::from(r) + 1,
            Place::Slot(s) => 2 * u32::from(s),
        }
    }
}

impl From<PhysReg> for Place {
    fn from(reg: PhysReg) -> Self {
        Place::Register(reg.index() as u16)
    }
}

impl From<SpillSlot> for Place {
    fn from(slot: SpillSlot) -> Self {
        Place::Slot(slot.index() as u16)
    }
}

impl From<Allocation> for Place {
    fn from(place: Allocation) -> Self {
        match place.kind() {
            AllocationKind::PhysReg(reg) => reg.into(),
            AllocationKind::SpillSlot(slot) => slot.into(),
        }
    }
}

impl fmt::Display for Place {
    fn fmt(&self, f: &mut fmt::Formatter<'_>) -> fmt::Result {
        match self {
            Place::Register(r) => write!(f, "r{r}"),
            Place::Slot(s) => write!(f, "s{s}"),
        }
    }
}

/// A register of a target: whether it is memory, its bank and its units.
#[derive(Clone)]
pub struct Register {
    pub memory: bool,
    pub bank: usize,
    pub units: Vec<usize>,
}

/// What the units and slots hold.
#[derive(Clone)]
pub struct Machine {
    pub registers: Vec<Register>,
    pub units: Vec<u32>,
    /// The unit of a memory register holds a whole value.
    pub words: HashMap<usize, Vec<u32>>,
    pub slots: HashMap<u16, Vec<u32>>,
}

impl Machine {
    pub fn is_memory(&self, place: Place) -> bool {
        match place {
            Place::Register(r) => self.registers[r as usize].memory,
            Place::Slot(_) => true,
        }
    }

    pub fn read(&self, place: Place) -> Vec<u32> {
        match place {
            Place::Register(r) => {
                let Register { memory, units, .. } = &self.registers[r as usize];
                if *memory {
                    return self.words[&units[0]].clone();
                }
                units.iter().map(|&unit| self.units[unit]).collect()
            }
            Place::Slot(s) => self.slots[&s].clone(),
        }
    }

    pub fn write(&mut self, place: Place, words: Vec<u32>) {
        match place {
            Place::Register(r) => {
                let Register { memory, units, .. } = &self.registers[r as usize];
                if *memory {
                    self.words.insert(units[0], words);
                    return;
                }
                assert_eq!(units.len(), words.len(), "{place} is of another width");
                for (&unit, word) in units.iter().zip(words) {
                    self.units[unit] = word;
                }
            }
            Place::Slot(s) => {
                self.slots.insert(s, words);
            }
        }
    }

    /// Does one edit; `content` is what a value is.
    pub fn step(&mut self, edit: Edit, content: &impl Fn(u16) -> Vec<u32>) {
        match edit {
            Edit::Move { to, from, .. } => {
                let (to, from) = (to.into(), from.into());
                assert!(!(self.is_memory(to) && self.is_memory(from)), "{edit}");
                self.write(to, self.read(from));
            }
            Edit::Rematerialize { to, value } => {
                self.write(to.into(), content(value.index() as u16));
            }
            Edit::EmergencySpill { to, from } => self.write(to.into(), self.read(from.into())),
            Edit::EmergencyReload { to, from } => self.write(to.into(), self.read(from.into())),
        }
    }

    /// Does all edits of a patch.
    pub fn run(&mut self, edits: Edits<'_>, content: &impl Fn(u16) -> Vec<u32>) {
        for edit in edits {
            self.step(edit, content);
        }
    }
}
