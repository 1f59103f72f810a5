//! Where a list of edits first goes wrong: told, not proved.

use std::collections::BTreeMap;
use std::fmt;

use crate::edit::{Edit, Edits};
use crate::entity::{Allocation, PhysReg, RegUnit, SpillSlot, Value};
use crate::patch::Patch;
use crate::picture::Place;
use crate::picture::machine::{Sense, Word};
use crate::reading::Reading;

/// Where a list of edits that does not do what a patch asks first goes wrong.
#[derive(Clone, Copy, Debug, PartialEq, Eq)]
#[non_exhaustive]
pub enum Fault {
    /// An edit that cannot be done from every start.
    Edit {
        /// Its place in the list, counted from 0.
        index: usize,
        /// The edit.
        edit: Edit,
        /// Why it cannot.
        why: Cannot,
    },
    /// A destination that does not hold its value in the end.
    Destination {
        /// The destination.
        place: Allocation,
        /// The value.
        value: Value,
    },
    /// A unit that is not free and does not hold in the end what it began with.
    Unit {
        /// The unit.
        unit: RegUnit,
        /// The first register that has it.
        register: PhysReg,
    },
    /// An ordinary slot that does not hold in the end what it began with.
    Slot(SpillSlot),
}

/// Why an edit cannot be done.
#[derive(Clone, Copy, Debug, PartialEq, Eq)]
#[non_exhaustive]
pub enum Cannot {
    /// It moves from memory to memory.
    BothMemory,
    /// What it reads has so many words, and the register so many units.
    OtherLength {
        /// The words.
        words: usize,
        /// The units.
        units: usize,
    },
    /// What it reads may have any number of words: nothing says what it was at the start.
    AnyLength,
    /// Its value cannot be rebuilt.
    CannotRematerialize,
    /// Its value can be rebuilt, but not there.
    CannotRematerializeThere,
}

/// Prints the edit, counted from 1, and why it cannot be done; or the place, and what is wrong.
impl fmt::Display for Fault {
    fn fmt(&self, f: &mut fmt::Formatter<'_>) -> fmt::Result {
        match self {
            Fault::Edit { index, edit, why } => {
                let number = index + 1;
                write!(f, "edit {number}, `{edit}`, cannot be done: {why}")
            }
            Fault::Destination { place, value } => {
                let value = value.index();
                write!(f, "in the end {place} does not hold value {value}")
            }
            Fault::Unit { unit, register } => {
                let unit = unit.index();
                write!(
                    f,
                    "in the end unit {unit}, of {register}, does not hold what it began with"
                )
            }
            Fault::Slot(slot) => {
                write!(f, "in the end {slot} does not hold what it began with")
            }
        }
    }
}

impl fmt::Display for Cannot {
    fn fmt(&self, f: &mut fmt::Formatter<'_>) -> fmt::Result {
        match self {
            Cannot::BothMemory => f.write_str("both places are memory"),
            Cannot::OtherLength { words, units } => {
                let read = if *words == 1 { "is" } else { "are" };
                let (words, units) = (counted(*words, "word"), counted(*units, "unit"));
                write!(f, "{words} {read} read, and the register has {units}")
            }
            Cannot::AnyLength => f.write_str("what is read may have any number of words"),
            Cannot::CannotRematerialize => f.write_str("the value cannot be rebuilt"),
            Cannot::CannotRematerializeThere => f.write_str("the value cannot be rebuilt there"),
        }
    }
}

fn counted(count: usize, what: &str) -> String {
    match count {
        1 => format!("1 {what}"),
        _ => format!("{count} {what}s"),
    }
}

/// Where a list that [`examine`](crate::examine) says no to first goes wrong: the first edit
/// that cannot be done, or else a place that is wrong in the end. It is told by a machine
/// written for it, which nobody proved; the no is proved.
///
/// Nothing if it finds nothing wrong, if the job has not that patch or is refused for what is
/// outside a limit, or if a word is no edit.
///
/// ```
/// use parallel_moves::{Edit, PhysReg, Value, first_fault};
///
/// let job = std::fs::read("../examples/swap-full.job").unwrap();
/// let (r0, r1) = (PhysReg::new(0), PhysReg::new(1));
/// let edit = Edit::Move { to: r1.into(), from: r0.into(), value: Value::new(0) };
/// let fault = first_fault(&job, 0, &[edit.word()]).unwrap();
/// assert_eq!(fault.to_string(), "in the end r0 does not hold value 1");
/// ```
#[must_use]
pub fn first_fault(job: &[u8], patch: u32, words: &[u64]) -> Option<Fault> {
    let is_edit = |word: &u64| {
        let edit = Edits::new(std::slice::from_ref(word)).iter().next();
        edit.map(|edit| edit.word()) == Some(*word)
    };
    let has_kind = |word: &u64| (1..=4).contains(&(word % 8));
    if !words.iter().all(|word| has_kind(word) && is_edit(word)) {
        return None;
    }
    let job = Reading::of(job).job;
    let patch = job.patches.get(usize::try_from(patch).ok()?)?;
    if !job.can_be_shown(patch) {
        return None;
    }
    let sense = Sense::of(&job, patch);
    let start = Held::at_the_start(&sense);
    let mut held = start.clone();
    for (index, edit) in Edits::new(words).iter().enumerate() {
        if let Err(why) = held.step(&sense, edit) {
            return Some(Fault::Edit { index, edit, why });
        }
    }
    held.wrong_place(&sense, patch, &start)
}

/// What memory holds: words, or a list of which nothing is known but where it stood at the
/// start. No two of those are equal, and they fit no register.
#[derive(Clone, Debug, PartialEq, Eq)]
enum List {
    Words(Vec<Word>),
    Unknown(Place),
}

/// What is held. Every word that nothing ties to another is one of its own.
#[derive(Clone)]
struct Held {
    /// Of units, where it is not what they began with.
    words: BTreeMap<RegUnit, Word>,
    /// Of slots and of the units of memory registers.
    lists: BTreeMap<Place, List>,
}

impl Held {
    /// Each kept source holds its value.
    fn at_the_start(sense: &Sense<'_>) -> Self {
        let mut held = Held {
            words: BTreeMap::new(),
            lists: BTreeMap::new(),
        };
        for (&source, &value) in &sense.sources {
            held.write(sense, source, List::Words(sense.content(value)));
        }
        held
    }

    fn word(&self, unit: RegUnit) -> Word {
        self.words.get(&unit).copied().unwrap_or(Word::OfUnit(unit))
    }

    fn list(&self, cell: Place) -> List {
        let list = self.lists.get(&cell).cloned();
        list.unwrap_or(List::Unknown(cell))
    }

    fn read(&self, sense: &Sense<'_>, place: Place) -> List {
        if sense.is_memory(place) {
            return self.list(cell(sense, place));
        }
        let units = sense.units(&place).iter();
        List::Words(units.map(|unit| self.word(*unit)).collect())
    }

    fn write(&mut self, sense: &Sense<'_>, place: Place, list: List) {
        if sense.is_memory(place) {
            self.lists.insert(cell(sense, place), list);
        } else if let List::Words(words) = list {
            self.words
                .extend(sense.units(&place).iter().copied().zip(words));
        }
    }

    /// Writes what is read, if it fits.
    fn copy(&mut self, sense: &Sense<'_>, to: Place, from: Place) -> Result<(), Cannot> {
        let list = self.read(sense, from);
        let units = sense.units(&to).len();
        match &list {
            _ if sense.is_memory(to) => (),
            List::Unknown(_) => return Err(Cannot::AnyLength),
            List::Words(words) if words.len() != units => {
                let words = words.len();
                return Err(Cannot::OtherLength { words, units });
            }
            List::Words(_) => (),
        }
        self.write(sense, to, list);
        Ok(())
    }

    /// Does an edit, if it can be done.
    fn step(&mut self, sense: &Sense<'_>, edit: Edit) -> Result<(), Cannot> {
        match edit {
            Edit::Move { to, from, .. } => {
                let (to, from) = (to.into(), from.into());
                if sense.is_memory(to) && sense.is_memory(from) {
                    return Err(Cannot::BothMemory);
                }
                self.copy(sense, to, from)
            }
            Edit::Rematerialize { to, value } => {
                let info = sense.job.function.values.get(value.index());
                let remat = info.and_then(|info| info.remat);
                let (_, class) = remat.ok_or(Cannot::CannotRematerialize)?;
                if !sense.is_in_class(to.into(), class) {
                    return Err(Cannot::CannotRematerializeThere);
                }
                self.write(sense, to.into(), List::Words(sense.content(value)));
                Ok(())
            }
            Edit::EmergencySpill { to, from } => {
                self.copy(sense, Place::Slot(to), Place::Register(from))
            }
            Edit::EmergencyReload { to, from } => {
                self.copy(sense, Place::Register(to), Place::Slot(from))
            }
        }
    }

    /// The first place that is wrong in the end: of the destinations, then of the units, then
    /// of the ordinary slots.
    fn wrong_place(&self, sense: &Sense<'_>, patch: &Patch, start: &Held) -> Option<Fault> {
        for &[kind, first, second, third] in &patch.entries {
            let (code, value) = if kind == 0 {
                (second, third)
            } else {
                (first, second)
            };
            let (place, value) = (Allocation { code }, Value(value));
            if self.read(sense, place.into()) != List::Words(sense.content(value)) {
                return Some(Fault::Destination { place, value });
            }
        }
        let stays = |unit: RegUnit| {
            let cell = Place::Unit(unit);
            self.word(unit) == start.word(unit) && self.list(cell) == start.list(cell)
        };
        for unit in (0..sense.job.target.unit_count()).map(RegUnit) {
            let mut dests = sense.dests.keys();
            let written = dests.any(|dest| sense.units(dest).contains(&unit));
            if !written && !sense.free.contains(&unit) && !stays(unit) {
                let registers = &sense.job.target.registers;
                let register = registers.iter().position(|r| r.units.contains(&unit))?;
                let register = PhysReg::new(register);
                return Some(Fault::Unit { unit, register });
            }
        }
        let mut slots = (0..sense.job.function.slots).map(SpillSlot);
        let wrong = |slot: &SpillSlot| {
            let place = Place::Slot(*slot);
            !sense.dests.contains_key(&place) && self.list(place) != start.list(place)
        };
        slots.find(wrong).map(Fault::Slot)
    }
}

/// Where a place in memory keeps its list.
fn cell(sense: &Sense<'_>, place: Place) -> Place {
    match sense.units(&place) {
        [unit, ..] => Place::Unit(*unit),
        [] => place,
    }
}
