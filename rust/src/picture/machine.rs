//! What units and slots hold while edits are done, by name.

use std::collections::{BTreeMap, BTreeSet};
use std::slice;

use super::{Place, Places};
use crate::builder::{JobBuilder, RematCost};
use crate::edit::Edit;
use crate::entity::{Allocation, PhysReg, RegClass, RegUnit, SpillSlot, Value};
use crate::patch::Patch;

/// A word that a unit holds, or one of those that a slot or a memory register does.
#[derive(Clone, Copy, Debug, PartialEq, Eq)]
pub(crate) enum Word {
    /// One of a value.
    Of(Value, usize),
    /// What a unit held when the patch began.
    OfUnit(RegUnit),
    /// All that a slot held then.
    OfSlot(SpillSlot),
    /// Nothing that is needed.
    Nothing,
}

/// What a patch says of its places and values.
pub(crate) struct Sense<'a> {
    pub job: &'a JobBuilder,
    pub free: BTreeSet<RegUnit>,
    /// The sources of the kept moves.
    pub sources: Places<Value>,
    /// The sources of the moves that become rebuilds.
    pub not_read: BTreeSet<Place>,
    /// The destinations of all entries.
    pub dests: Places<Value>,
    /// Values that have a source in common are one: each has the first of them.
    same: BTreeMap<Value, Value>,
}

impl<'a> Sense<'a> {
    pub fn of(job: &'a JobBuilder, patch: &Patch) -> Self {
        let mut sense = Sense {
            job,
            free: patch.free.iter().copied().collect(),
            sources: Places::new(),
            not_read: BTreeSet::new(),
            dests: Places::new(),
            same: BTreeMap::new(),
        };
        for &[kind, first, second, third] in &patch.entries {
            if kind != 0 {
                let value = Value(second);
                sense.dests.entry(place(first)).or_insert(value);
                continue;
            }
            let (source, dest, value) = (place(first), place(second), Value(third));
            sense.dests.entry(dest).or_insert(value);
            if sense.becomes_remat(source, dest, value) {
                sense.not_read.insert(source);
            } else {
                let first = *sense.sources.entry(source).or_insert(value);
                sense.unite(first, value);
            }
        }
        sense
    }

    /// Whether a move becomes a rebuild.
    fn becomes_remat(&self, source: Place, dest: Place, value: Value) -> bool {
        let value = self.job.function.values.get(value.index());
        let Some((cost, class)) = value.and_then(|value| value.remat) else {
            return false;
        };
        self.is_memory(source)
            || cost == RematCost::CheaperThanMove && self.is_in_class(dest, class)
    }

    pub fn is_in_class(&self, place: Place, class: RegClass) -> bool {
        let class = self.job.target.classes.get(class.index());
        class.is_some_and(|class| match place {
            Place::Register(register) => class.members.contains(&register),
            Place::Slot(_) => class.slots,
            Place::Unit(_) => false,
        })
    }

    /// Lets two values be one.
    fn unite(&mut self, one: Value, other: Value) {
        let (one, other) = (self.first_of(one), self.first_of(other));
        let (first, second) = (one.min(other), one.max(other));
        for value in self.same.values_mut().filter(|value| **value == second) {
            *value = first;
        }
        self.same.insert(second, first);
        self.same.insert(first, first);
    }

    /// The first of the values that are one with a value.
    fn first_of(&self, value: Value) -> Value {
        self.same.get(&value).copied().unwrap_or(value)
    }

    pub fn is_memory(&self, place: Place) -> bool {
        match place {
            Place::Slot(_) => true,
            Place::Unit(_) => false,
            Place::Register(register) => {
                let register = self.job.target.registers.get(register.index());
                register.is_some_and(|register| register.memory)
            }
        }
    }

    /// The units of a place; a slot has none.
    pub fn units<'b>(&'b self, place: &'b Place) -> &'b [RegUnit] {
        match place {
            Place::Slot(_) => &[],
            Place::Unit(unit) => slice::from_ref(unit),
            Place::Register(register) => {
                let register = self.job.target.registers.get(register.index());
                register.map_or(&[], |register| &register.units)
            }
        }
    }

    pub fn overlap(&self, one: Place, other: Place) -> bool {
        let units = self.units(&other);
        one == other || self.units(&one).iter().any(|unit| units.contains(unit))
    }

    /// The words of a value, as many as a register of its bank has units that is not memory.
    pub fn content(&self, value: Value) -> Vec<Word> {
        let bank = self
            .job
            .function
            .values
            .get(value.index())
            .map(|value| value.bank);
        let mut registers = self.job.target.registers.iter();
        let register = registers.find(|register| !register.memory && Some(register.bank) == bank);
        let width = register.map_or(1, |register| register.units.len());
        let value = self.first_of(value);
        (0..width).map(|index| Word::Of(value, index)).collect()
    }

    /// Whether words are a whole value.
    pub fn is_value(&self, words: &[Word]) -> bool {
        matches!(words, [Word::Of(value, 0), ..] if words == self.content(*value))
    }

    /// Whether one of them is needed.
    pub fn is_needed(&self, words: &[Word]) -> bool {
        words.iter().any(|word| *word != Word::Nothing)
    }

    /// What words in a place are called.
    pub fn name(&self, words: &[Word], place: Place) -> String {
        if !self.is_needed(words) {
            return "-".to_owned();
        }
        if let [Word::Of(value, 0), ..] = words
            && self.is_value(words)
        {
            return self.value_name(*value);
        }
        if let Some(register) = self.register_of(words, place) {
            return format!("({register})");
        }
        let names: Vec<String> = words.iter().map(|word| self.word_name(*word)).collect();
        names.join(" ")
    }

    /// A value's name, and those of the ones that it is one with.
    fn value_name(&self, value: Value) -> String {
        let others = self.same.iter().filter(|(_, first)| **first == value);
        let mut names: Vec<String> = others.map(|(value, _)| format!("v{}", value.0)).collect();
        if names.is_empty() {
            names.push(format!("v{}", value.0));
        }
        names.join("=")
    }

    fn word_name(&self, word: Word) -> String {
        match word {
            Word::Of(value, 0) if self.content(value).len() == 1 => self.value_name(value),
            Word::Of(value, index) => format!("{}.{index}", self.value_name(value)),
            Word::OfUnit(unit) => format!("(u{})", unit.0),
            Word::OfSlot(slot) => format!("({slot})"),
            Word::Nothing => "-".to_owned(),
        }
    }

    /// The register that held these words when the patch began: that of the place, if it
    /// did.
    fn register_of(&self, words: &[Word], place: Place) -> Option<Place> {
        let held = |place: &Place| {
            let units = self.units(place).iter().copied().map(Word::OfUnit);
            matches!(place, Place::Register(_)) && units.eq(words.iter().copied())
        };
        let registers = (0..self.job.target.registers.len()).map(PhysReg::new);
        let mut places = [place].into_iter().chain(registers.map(Place::Register));
        places.find(held)
    }
}

/// A place by its code.
fn place(code: u32) -> Place {
    Allocation { code }.into()
}

/// What is held at a stop.
#[derive(Clone)]
pub(super) struct Machine {
    /// A unit of a memory register holds several words.
    units: BTreeMap<RegUnit, Vec<Word>>,
    slots: BTreeMap<SpillSlot, Vec<Word>>,
    /// The registers that are saved, and where.
    pub saved: BTreeMap<PhysReg, SpillSlot>,
}

impl Machine {
    /// What is held when a patch begins.
    pub fn new(sense: &Sense<'_>) -> Self {
        let mut machine = Machine {
            units: BTreeMap::new(),
            slots: BTreeMap::new(),
            saved: BTreeMap::new(),
        };
        let written: BTreeSet<RegUnit> = sense
            .dests
            .keys()
            .flat_map(|dest| sense.units(dest))
            .copied()
            .collect();
        for unit in (0..sense.job.target.unit_count()).map(RegUnit) {
            if !sense.free.contains(&unit) && !written.contains(&unit) {
                machine.units.insert(unit, vec![Word::OfUnit(unit)]);
            }
        }
        for slot in (0..sense.job.function.slots).map(SpillSlot) {
            if !sense.dests.contains_key(&Place::Slot(slot)) {
                machine.slots.insert(slot, vec![Word::OfSlot(slot)]);
            }
        }
        for (&source, &value) in &sense.sources {
            machine.write(sense, source, sense.content(value));
        }
        machine
    }

    pub fn read(&self, sense: &Sense<'_>, place: Place) -> Vec<Word> {
        if let Place::Slot(slot) = place {
            let words = self.slots.get(&slot).cloned();
            return words.unwrap_or(vec![Word::Nothing]);
        }
        let unit = |unit: &RegUnit| {
            let words = self.units.get(unit).cloned();
            words.unwrap_or(vec![Word::Nothing])
        };
        sense.units(&place).iter().flat_map(unit).collect()
    }

    fn write(&mut self, sense: &Sense<'_>, place: Place, words: Vec<Word>) {
        if let Place::Slot(slot) = place {
            self.slots.insert(slot, words);
            return;
        }
        match *sense.units(&place) {
            [unit] if sense.is_memory(place) => {
                self.units.insert(unit, words);
            }
            ref units => {
                for (index, unit) in units.iter().enumerate() {
                    let word = words.get(index).copied().unwrap_or(Word::Nothing);
                    self.units.insert(*unit, vec![word]);
                }
            }
        }
    }

    /// Does an edit.
    pub fn step(&mut self, sense: &Sense<'_>, edit: Edit) {
        match edit {
            Edit::Move { to, from, .. } => {
                let words = self.read(sense, from.into());
                self.write(sense, to.into(), words);
            }
            Edit::Rematerialize { to, value } => {
                self.write(sense, to.into(), sense.content(value));
            }
            Edit::EmergencySpill { to, from } => {
                let words = self.read(sense, Place::Register(from));
                self.write(sense, Place::Slot(to), words);
                self.saved.insert(from, to);
            }
            Edit::EmergencyReload { to, from } => {
                let words = self.read(sense, Place::Slot(from));
                self.write(sense, Place::Register(to), words);
                self.saved.remove(&to);
            }
        }
    }
}
