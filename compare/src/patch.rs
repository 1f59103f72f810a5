//! A patch of a job: its free units and entries, tested in document 01's order.

use original::function::{Function, RematCost, Value};
use original::output::{Allocation, AllocationKind, SpillSlot};
use original::reginfo::{PhysReg, RegBank, RegClass, RegUnit, RegUnitSet};

use crate::number::{LISTED_TWICE, NAMES_NOTHING, Reader, Refused};
use crate::target::Target;
use crate::values::{FOREIGN_BANK, Values};

pub const MOST_ENTRIES: usize = 128;

/// 10: self-move.
const SELF_MOVE: Refused = Refused(10);
/// 11: cannot rebuild.
const CANNOT_REMATERIALIZE: Refused = Refused(11);
/// 12: the destination overlaps that of an earlier entry.
const WRITTEN_TWICE: Refused = Refused(12);
/// 13: a free unit is a destination's.
const FREE_AND_WRITTEN: Refused = Refused(13);
/// 14: a rebuild's scratch would have to be evicted from its destination.
const EVICTS_DESTINATION: Refused = Refused(14);
/// 15: one entry too many.
const TOO_MANY_ENTRIES: Refused = Refused(15);
/// 21: the source overlaps an unequal one of an earlier kept move (request 02 h).
const OVERLAPPING_SOURCES: Refused = Refused(21);

/// An entry of a patch.
#[derive(Clone, Copy)]
pub enum Entry {
    Move {
        source: Allocation,
        dest: Allocation,
        value: Value,
    },
    Remat {
        dest: Allocation,
        value: Value,
    },
}

/// A patch that is accepted unless it needs too many slots, or is lent too
/// short a list.
pub struct Patch {
    pub free: RegUnitSet,
    pub entries: Vec<Entry>,
    /// How many edits it can have: 8 for a kept move, 5 for a rebuild with
    /// scratch, 1 for another.
    pub bound: usize,
}

impl Patch {
    /// Reads a patch and makes every test but 16 and 17.
    pub fn read(reader: &mut Reader, target: &Target, values: &Values) -> Result<Patch, Refused> {
        let free = read_free_units(reader, target)?;

        let entry_count = reader.number()? as usize;
        let mut entries = Vec::new();
        let mut seen = Seen::default();
        for index in 0..entry_count {
            if index == MOST_ENTRIES {
                return Err(TOO_MANY_ENTRIES);
            }
            let entry = Entry::read(reader, target, values)?;
            seen.test(entry, target, values)?;
            entries.push(entry);
        }

        if free.into_iter().any(|unit| seen.units.contains(unit)) {
            return Err(FREE_AND_WRITTEN);
        }
        if seen.evicts_destination {
            return Err(EVICTS_DESTINATION);
        }
        Ok(Patch {
            free,
            entries,
            bound: seen.bound,
        })
    }
}

fn read_free_units(reader: &mut Reader, target: &Target) -> Result<RegUnitSet, Refused> {
    let count = reader.number()?;
    let mut free = RegUnitSet::new();
    let mut least = 0;
    for _ in 0..count {
        let unit = reader.index(target.units)?;
        if unit < least {
            return Err(LISTED_TWICE);
        }
        least = unit + 1;
        free.insert(RegUnit::new(unit));
    }
    Ok(free)
}

impl Entry {
    fn read(reader: &mut Reader, target: &Target, values: &Values) -> Result<Entry, Refused> {
        let remat = reader.flag()?;
        let entry = if remat {
            Entry::Remat {
                dest: read_place(reader, target, values)?,
                value: read_value(reader, values)?,
            }
        } else {
            Entry::Move {
                source: read_place(reader, target, values)?,
                dest: read_place(reader, target, values)?,
                value: read_value(reader, values)?,
            }
        };
        Ok(entry)
    }
}

/// Slot s is 2s, register r is 2r + 1.
fn read_place(
    reader: &mut Reader,
    target: &Target,
    values: &Values,
) -> Result<Allocation, Refused> {
    let code = reader.number()? as usize;
    let index = code / 2;
    if code % 2 == 1 && index < target.registers.len() {
        Ok(Allocation::reg(PhysReg::new(index)))
    } else if code % 2 == 0 && index < values.slots {
        Ok(Allocation::spillslot(SpillSlot::new(index)))
    } else {
        Err(NAMES_NOTHING)
    }
}

fn read_value(reader: &mut Reader, values: &Values) -> Result<Value, Refused> {
    Ok(Value::new(reader.index(values.num_values())?))
}

/// What becomes of an entry.
enum Fate {
    Kept,
    Remat { class: RegClass, scratch: bool },
}

/// What the entries so far come to.
#[derive(Default)]
struct Seen {
    /// Source, destination and value of the moves kept.
    kept: Vec<(Allocation, Allocation, Value)>,
    /// The register units of their sources.
    sources: RegUnitSet,
    /// The register units and the slots of all destinations.
    units: RegUnitSet,
    slots: Vec<SpillSlot>,
    /// Whether 14 holds of an entry.
    evicts_destination: bool,
    /// How many edits they can have.
    bound: usize,
}

impl Seen {
    /// Tests 9 to 12, and then 21, of an entry and takes it in.
    fn test(&mut self, entry: Entry, target: &Target, values: &Values) -> Result<(), Refused> {
        let (source, dest, value) = match entry {
            Entry::Move {
                source,
                dest,
                value,
            } => (Some(source), dest, value),
            Entry::Remat { dest, value } => (None, dest, value),
        };

        let bank = values.value_bank(value);
        for place in source.into_iter().chain([dest]) {
            if !of_bank(place, bank, target) {
                return Err(FOREIGN_BANK);
            }
        }
        if source == Some(dest) {
            return Err(SELF_MOVE);
        }
        let fate = fate(source, dest, value, target, values)?;

        if let (Fate::Kept, Some(source)) = (&fate, source) {
            let kept = (source, dest, value);
            if self.kept.contains(&kept) {
                return Ok(());
            }
            self.write(dest, target)?;
            self.read(source, target)?;
            self.kept.push(kept);
            self.bound += 8;
        } else {
            self.write(dest, target)?;
        }

        if let Fate::Remat { class, scratch } = fate {
            self.bound += if scratch { 5 } else { 1 };
            let class = target.class(class);
            if let Some(&last) = class.order.last()
                && scratch
                && !class.slots
                && overlap(Allocation::reg(last), dest, target)
            {
                self.evicts_destination = true;
            }
        }
        Ok(())
    }

    /// Marks the source of a move to be kept as read, or refuses with 21: each
    /// earlier one is held against it, if a unit of it was read at all.
    fn read(&mut self, source: Allocation, target: &Target) -> Result<(), Refused> {
        // A slot overlaps itself alone, and is then equal.
        let AllocationKind::PhysReg(reg) = source.kind() else {
            return Ok(());
        };
        let units = &target.register(reg).units;
        if units.iter().any(|&unit| self.sources.contains(unit)) {
            for &(earlier, _, _) in &self.kept {
                if earlier != source && overlap(earlier, source, target) {
                    return Err(OVERLAPPING_SOURCES);
                }
            }
        }
        self.sources.extend(units.iter().copied());
        Ok(())
    }

    /// Marks a destination as written, or refuses with 12.
    fn write(&mut self, dest: Allocation, target: &Target) -> Result<(), Refused> {
        match dest.kind() {
            AllocationKind::PhysReg(reg) => {
                let units = &target.register(reg).units;
                if units.iter().any(|&unit| self.units.contains(unit)) {
                    return Err(WRITTEN_TWICE);
                }
                self.units.extend(units.iter().copied());
            }
            AllocationKind::SpillSlot(slot) => {
                if self.slots.contains(&slot) {
                    return Err(WRITTEN_TWICE);
                }
                self.slots.push(slot);
            }
        }
        Ok(())
    }
}

/// A slot is of no bank and always passes.
fn of_bank(place: Allocation, bank: RegBank, target: &Target) -> bool {
    match place.kind() {
        AllocationKind::PhysReg(reg) => target.register(reg).bank == bank,
        AllocationKind::SpillSlot(_) => true,
    }
}

/// Decides whether an entry is kept as a move or becomes a rebuild; an entry
/// without a source that cannot be rebuilt is refused with 11.
fn fate(
    source: Option<Allocation>,
    dest: Allocation,
    value: Value,
    target: &Target,
    values: &Values,
) -> Result<Fate, Refused> {
    let Some((cost, class)) = values.can_rematerialize(value) else {
        return match source {
            Some(_) => Ok(Fate::Kept),
            None => Err(CANNOT_REMATERIALIZE),
        };
    };
    let in_class = match dest.kind() {
        AllocationKind::PhysReg(reg) => target.class(class).members.contains(reg),
        AllocationKind::SpillSlot(_) => target.class(class).slots,
    };
    let remat = match source {
        None => true,
        Some(source) => {
            is_memory(source, target) || (cost == RematCost::CheaperThanMove && in_class)
        }
    };
    Ok(if remat {
        Fate::Remat {
            class,
            scratch: !in_class,
        }
    } else {
        Fate::Kept
    })
}

fn is_memory(place: Allocation, target: &Target) -> bool {
    match place.kind() {
        AllocationKind::PhysReg(reg) => target.register(reg).memory,
        AllocationKind::SpillSlot(_) => true,
    }
}

/// Whether two places share a unit; a slot overlaps itself alone.
fn overlap(one: Allocation, other: Allocation, target: &Target) -> bool {
    match (one.kind(), other.kind()) {
        (AllocationKind::PhysReg(one), AllocationKind::PhysReg(other)) => {
            let units = &target.register(other).units;
            target.register(one).units.iter().any(|u| units.contains(u))
        }
        _ => one == other,
    }
}
