//! A job in the making: the same things that a job has, as plain numbers that
//! may be anything, and how they are written down.

use crate::number;

pub const COST_NONE: usize = 0;
pub const COST_BELOW_MOVE: usize = 1;
pub const COST_BELOW_LOAD: usize = 2;

/// Unit number of slot 0 in a table over all units.
pub const FIRST_SLOT_UNIT: usize = 512;

#[derive(Clone)]
pub struct Bank {
    pub size_log2: usize,
    pub top_level_class: usize,
    pub stack_class: usize,
}

#[derive(Clone)]
pub struct Register {
    pub memory: bool,
    pub bank: usize,
    pub units: Vec<usize>,
}

#[derive(Clone)]
pub struct Class {
    pub bank: usize,
    pub slots: bool,
    pub members: Vec<usize>,
    pub order: Vec<usize>,
}

#[derive(Clone)]
pub struct Target {
    pub units: usize,
    pub banks: Vec<Bank>,
    pub registers: Vec<Register>,
    pub classes: Vec<Class>,
}

#[derive(Clone)]
pub struct Value {
    pub bank: usize,
    pub cost: usize,
    /// The rebuild class, unless there is no cost.
    pub class: usize,
}

#[derive(Clone, Copy, PartialEq, Eq, Debug)]
pub enum Place {
    Slot(usize),
    Register(usize),
}

#[derive(Clone, Copy, PartialEq, Eq)]
pub struct Entry {
    /// None of an `add_remat` entry.
    pub source: Option<Place>,
    pub dest: Place,
    pub value: usize,
}

#[derive(Clone, Default)]
pub struct Patch {
    pub free: Vec<usize>,
    pub entries: Vec<Entry>,
}

#[derive(Clone)]
pub struct Draft {
    pub target: Target,
    pub values: Vec<Value>,
    pub slots: usize,
    pub emergency_limit: usize,
    pub patches: Vec<Patch>,
}

/// A number of a job and, if it is tested when read, what it may be.
#[derive(Clone, Copy)]
pub struct Field {
    pub number: u32,
    pub range: Option<(usize, usize)>,
}

impl Place {
    /// Slot s is 2s, register r is 2r + 1.
    pub fn code(self) -> usize {
        match self {
            Place::Slot(slot) => 2 * slot,
            Place::Register(reg) => 2 * reg + 1,
        }
    }
}

impl Target {
    /// Whether some unit of a place, in a table over all units, is such.
    pub fn any_unit(&self, place: Place, mut such: impl FnMut(usize) -> bool) -> bool {
        match place {
            Place::Register(reg) => self.registers[reg].units.iter().any(|&unit| such(unit)),
            Place::Slot(slot) => such(FIRST_SLOT_UNIT + slot),
        }
    }

    pub fn is_memory(&self, place: Place) -> bool {
        match place {
            Place::Register(reg) => self.registers[reg].memory,
            Place::Slot(_) => true,
        }
    }

    pub fn overlap(&self, a: Place, b: Place) -> bool {
        self.any_unit(a, |unit| self.any_unit(b, |other| other == unit))
    }

    pub fn class_has(&self, class: usize, place: Place) -> bool {
        match place {
            Place::Register(reg) => self.classes[class].members.contains(&reg),
            Place::Slot(_) => self.classes[class].slots,
        }
    }

    /// The registers of a bank, rising.
    pub fn registers_of(&self, bank: usize) -> Vec<usize> {
        (0..self.registers.len())
            .filter(|&reg| self.registers[reg].bank == bank)
            .collect()
    }

    /// How many units those registers of a bank have that aren't memory.
    pub fn width_of(&self, bank: usize) -> usize {
        let own = |register: &&Register| register.bank == bank && !register.memory;
        self.registers.iter().find(own).map_or(1, |r| r.units.len())
    }

    /// The classes of a bank, rising.
    pub fn classes_of(&self, bank: usize) -> Vec<usize> {
        (0..self.classes.len())
            .filter(|&class| self.classes[class].bank == bank)
            .collect()
    }
}

impl Draft {
    /// Whether an entry is a rebuild and not kept as a move.
    pub fn is_remat(&self, entry: &Entry) -> bool {
        let value = &self.values[entry.value];
        match entry.source {
            None => true,
            Some(_) if value.cost == COST_NONE => false,
            Some(source) => {
                self.target.is_memory(source)
                    || (value.cost == COST_BELOW_MOVE
                        && self.target.class_has(value.class, entry.dest))
            }
        }
    }

    /// Whether 14 holds of an entry.
    pub fn evicts_destination(&self, entry: &Entry) -> bool {
        let value = &self.values[entry.value];
        if value.cost == COST_NONE || !self.is_remat(entry) {
            return false;
        }
        let class = &self.target.classes[value.class];
        !self.target.class_has(value.class, entry.dest)
            && !class.slots
            && class
                .order
                .last()
                .is_some_and(|&last| self.target.overlap(Place::Register(last), entry.dest))
    }

    /// The job's numbers in their order.
    pub fn fields(&self) -> Vec<Field> {
        let mut fields = Fields(Vec::new());
        self.put_target(&mut fields);
        self.put_function(&mut fields);
        fields.within(self.patches.len(), 1, 1024);
        for patch in &self.patches {
            self.put_patch(&mut fields, patch);
        }
        fields.0
    }

    /// The job.
    pub fn job(&self) -> Vec<u8> {
        write(&self.fields())
    }

    /// The target and the function, with nothing behind them.
    pub fn opening(&self) -> Vec<u8> {
        let mut fields = Fields(Vec::new());
        self.put_target(&mut fields);
        self.put_function(&mut fields);
        write(&fields.0)
    }

    fn put_target(&self, fields: &mut Fields) {
        let target = &self.target;
        fields.within(target.units, 1, 512);
        fields.within(target.banks.len(), 1, 8);
        for bank in &target.banks {
            fields.within(bank.size_log2, 0, 31);
            fields.index(bank.top_level_class, target.classes.len());
            fields.index(bank.stack_class, target.classes.len());
        }
        fields.within(target.registers.len(), 1, 512);
        for register in &target.registers {
            fields.within(usize::from(register.memory), 0, 1);
            fields.index(register.bank, target.banks.len());
            fields.within(register.units.len(), 1, 8);
            for &unit in &register.units {
                fields.index(unit, target.units);
            }
        }
        fields.within(target.classes.len(), 1, 64);
        let mut order_entries = 0;
        for class in &target.classes {
            fields.index(class.bank, target.banks.len());
            fields.within(usize::from(class.slots), 0, 1);
            fields.any(class.members.len());
            for &reg in &class.members {
                fields.index(reg, target.registers.len());
            }
            fields.within(
                class.order.len(),
                0,
                4096usize.saturating_sub(order_entries),
            );
            order_entries += class.order.len();
            for &reg in &class.order {
                fields.index(reg, target.registers.len());
            }
        }
    }

    fn put_function(&self, fields: &mut Fields) {
        fields.within(self.values.len(), 0, 4096);
        fields.within(self.slots, 0, 4096);
        fields.within(self.emergency_limit, 0, 2048);
        for value in &self.values {
            fields.index(value.bank, self.target.banks.len());
            fields.within(value.cost, 0, 2);
            if value.cost != COST_NONE {
                fields.index(value.class, self.target.classes.len());
            }
        }
    }

    fn put_patch(&self, fields: &mut Fields, patch: &Patch) {
        fields.any(patch.free.len());
        for &unit in &patch.free {
            fields.index(unit, self.target.units);
        }
        fields.any(patch.entries.len());
        for entry in &patch.entries {
            fields.within(usize::from(entry.source.is_none()), 0, 1);
            if let Some(source) = entry.source {
                self.put_place(fields, source);
            }
            self.put_place(fields, entry.dest);
            fields.index(entry.value, self.values.len());
        }
    }

    /// One past the range of a place is the first slot or register that is
    /// not there.
    fn put_place(&self, fields: &mut Fields, place: Place) {
        let past = match place {
            Place::Slot(_) => 2 * self.slots,
            Place::Register(_) => 2 * self.target.registers.len() + 1,
        };
        fields.index(place.code(), past);
    }
}

/// Numbers as they are put down.
struct Fields(Vec<Field>);

impl Fields {
    fn put(&mut self, number: usize, range: Option<(usize, usize)>) {
        self.0.push(Field {
            number: number as u32,
            range,
        });
    }

    fn any(&mut self, number: usize) {
        self.put(number, None);
    }

    fn within(&mut self, number: usize, least: usize, most: usize) {
        self.put(number, Some((least, most)));
    }

    fn index(&mut self, number: usize, count: usize) {
        self.put(number, Some((0, count.saturating_sub(1))));
    }
}

/// Writes numbers in their shortest form.
pub fn write(fields: &[Field]) -> Vec<u8> {
    let mut job = Vec::new();
    for field in fields {
        number::put(&mut job, field.number);
    }
    job
}
