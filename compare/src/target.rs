//! The target of a job: units, banks, registers and classes, with the rules
//! that document 01 lays on them, and as the original's `RegInfo`.

use original::reginfo::{
    MAX_REG_UNITS, PhysReg, PhysRegSet, RegBank, RegClass, RegClassSet, RegGroup, RegGroupSet,
    RegInfo, RegUnit, SpillSlotSize,
};

use crate::number::{LISTED_TWICE, NAMES_NOTHING, Reader, Refused};

pub const MOST_UNITS: usize = 512;
pub const MOST_BANKS: usize = 8;
pub const MOST_REGISTERS: usize = 512;
pub const MOST_UNITS_OF_REGISTER: usize = 8;
pub const MOST_CLASSES: usize = 64;
pub const MOST_ORDER_ENTRIES: usize = 4096;
pub const MOST_SIZE_LOG2: usize = 31;

pub struct Bank {
    pub size_log2: u32,
    pub top_level_class: RegClass,
    pub stack_class: RegClass,
}

pub struct Register {
    pub memory: bool,
    pub bank: RegBank,
    pub units: Vec<RegUnit>,
}

pub struct Class {
    pub bank: RegBank,
    pub slots: bool,
    pub members: PhysRegSet,
    pub order: Vec<PhysReg>,
}

pub struct Target {
    pub units: usize,
    pub banks: Vec<Bank>,
    pub registers: Vec<Register>,
    pub classes: Vec<Class>,
}

impl Target {
    /// Reads a target and tests its rules.
    pub fn read(reader: &mut Reader) -> Result<Target, Refused> {
        let target = Target::read_untested(reader)?;
        target.test_rules()?;
        Ok(target)
    }

    /// Reads a target, whose rules 4 to 7 may not hold.
    pub fn read_untested(reader: &mut Reader) -> Result<Target, Refused> {
        let units = reader.within(1, MOST_UNITS)?;

        // A bank's class numbers can't be tested before the class count.
        let bank_count = reader.within(1, MOST_BANKS)?;
        let mut raw_banks = Vec::new();
        for _ in 0..bank_count {
            let size_log2 = reader.within(0, MOST_SIZE_LOG2)?;
            let top_level_class = reader.number()? as usize;
            let stack_class = reader.number()? as usize;
            raw_banks.push((size_log2, top_level_class, stack_class));
        }

        let register_count = reader.within(1, MOST_REGISTERS)?;
        let mut registers = Vec::new();
        for _ in 0..register_count {
            registers.push(Register::read(reader, units, bank_count)?);
        }

        let class_count = reader.within(1, MOST_CLASSES)?;
        let mut banks = Vec::new();
        for (size_log2, top_level_class, stack_class) in raw_banks {
            if top_level_class >= class_count || stack_class >= class_count {
                return Err(NAMES_NOTHING);
            }
            banks.push(Bank {
                size_log2: size_log2 as u32,
                top_level_class: RegClass::new(top_level_class),
                stack_class: RegClass::new(stack_class),
            });
        }

        let mut classes = Vec::new();
        let mut order_entries = 0;
        for _ in 0..class_count {
            let class = Class::read(reader, bank_count, register_count, order_entries)?;
            order_entries += class.order.len();
            classes.push(class);
        }

        Ok(Target {
            units,
            banks,
            registers,
            classes,
        })
    }

    /// 4 to 7, each over the whole target before the next.
    fn test_rules(&self) -> Result<(), Refused> {
        let rules: [(u8, fn(&Target) -> bool); 4] = [
            (4, Target::widths_fit),
            (5, Target::all_of_their_banks),
            (6, Target::memory_apart),
            (7, Target::classes_can_serve),
        ];
        for (number, holds) in rules {
            if !holds(self) {
                return Err(Refused(number));
            }
        }
        Ok(())
    }

    /// 4: a memory register has one unit, and the other registers of a bank
    /// have equally many (request 02 b).
    fn widths_fit(&self) -> bool {
        let mut widths = vec![None; self.banks.len()];
        self.registers.iter().all(|register| {
            let width = register.units.len();
            match register.memory {
                true => width == 1,
                false => *widths[register.bank.index()].get_or_insert(width) == width,
            }
        })
    }

    /// 5: a class's members, and a bank's top-level and stack classes, are of
    /// that bank, and an order lists members only.
    fn all_of_their_banks(&self) -> bool {
        self.banks.iter().enumerate().all(|(index, bank)| {
            self.class(bank.top_level_class).bank.index() == index
                && self.class(bank.stack_class).bank.index() == index
        }) && self.classes.iter().all(|class| {
            class
                .members
                .into_iter()
                .all(|member| self.register(member).bank == class.bank)
                && class.order.iter().all(|&reg| class.members.contains(reg))
        })
    }

    /// 6: a memory register shares no unit with one that isn't memory.
    fn memory_apart(&self) -> bool {
        let mut kinds = [None; MAX_REG_UNITS];
        self.registers.iter().all(|register| {
            register
                .units
                .iter()
                .all(|unit| *kinds[unit.index()].get_or_insert(register.memory) == register.memory)
        })
    }

    /// 7: a top-level class includes slots, a stack class does not and its
    /// order has no memory register, and a class without slots has a non-empty
    /// order whose last register isn't memory.
    fn classes_can_serve(&self) -> bool {
        self.banks.iter().all(|bank| {
            let stack_class = self.class(bank.stack_class);
            self.class(bank.top_level_class).slots
                && !stack_class.slots
                && !stack_class
                    .order
                    .iter()
                    .any(|&reg| self.register(reg).memory)
        }) && self.classes.iter().all(|class| {
            class.slots
                || class
                    .order
                    .last()
                    .is_some_and(|&reg| !self.register(reg).memory)
        })
    }

    pub fn class(&self, class: RegClass) -> &Class {
        &self.classes[class.index()]
    }

    pub fn register(&self, reg: PhysReg) -> &Register {
        &self.registers[reg.index()]
    }

    fn bank(&self, bank: RegBank) -> &Bank {
        &self.banks[bank.index()]
    }
}

impl Register {
    fn read(reader: &mut Reader, units: usize, banks: usize) -> Result<Register, Refused> {
        let memory = reader.flag()?;
        let bank = RegBank::new(reader.index(banks)?);
        let unit_count = reader.within(1, MOST_UNITS_OF_REGISTER)?;
        let mut own = Vec::new();
        for _ in 0..unit_count {
            let unit = RegUnit::new(reader.index(units)?);
            if own.contains(&unit) {
                return Err(LISTED_TWICE);
            }
            own.push(unit);
        }
        Ok(Register {
            memory,
            bank,
            units: own,
        })
    }
}

impl Class {
    /// Reads a class, when the classes before it have `order_entries` in all.
    fn read(
        reader: &mut Reader,
        banks: usize,
        registers: usize,
        order_entries: usize,
    ) -> Result<Class, Refused> {
        let bank = RegBank::new(reader.index(banks)?);
        let slots = reader.flag()?;

        let member_count = reader.number()?;
        let mut members = PhysRegSet::new();
        for _ in 0..member_count {
            let reg = PhysReg::new(reader.index(registers)?);
            if members.contains(reg) {
                return Err(LISTED_TWICE);
            }
            members.insert(reg);
        }

        let order_count = reader.within(0, MOST_ORDER_ENTRIES - order_entries)?;
        let mut order = Vec::new();
        let mut listed = PhysRegSet::new();
        for _ in 0..order_count {
            let reg = PhysReg::new(reader.index(registers)?);
            if listed.contains(reg) {
                return Err(LISTED_TWICE);
            }
            listed.insert(reg);
            order.push(reg);
        }

        Ok(Class {
            bank,
            slots,
            members,
            order,
        })
    }
}

/// What the module never asks for.
macro_rules! not_asked {
    () => {
        unimplemented!("the module never asks for this")
    };
}

impl RegInfo for Target {
    fn num_banks(&self) -> usize {
        self.banks.len()
    }

    fn top_level_class(&self, bank: RegBank) -> RegClass {
        self.bank(bank).top_level_class
    }

    fn stack_to_stack_class(&self, bank: RegBank) -> RegClass {
        self.bank(bank).stack_class
    }

    fn bank_for_class(&self, class: RegClass) -> RegBank {
        self.class(class).bank
    }

    fn bank_for_reg(&self, reg: PhysReg) -> Option<RegBank> {
        Some(self.register(reg).bank)
    }

    fn spillslot_size(&self, bank: RegBank) -> SpillSlotSize {
        SpillSlotSize::from_log2_bytes(self.bank(bank).size_log2)
    }

    fn num_classes(&self) -> usize {
        self.classes.len()
    }

    fn class_members(&self, class: RegClass) -> PhysRegSet {
        self.class(class).members
    }

    fn class_group_members(&self, _class: RegClass) -> RegGroupSet {
        not_asked!()
    }

    fn class_includes_spillslots(&self, class: RegClass) -> bool {
        self.class(class).slots
    }

    fn class_spill_cost(&self, _class: RegClass) -> f32 {
        not_asked!()
    }

    fn allocation_order(&self, class: RegClass) -> &[PhysReg] {
        &self.class(class).order
    }

    fn group_allocation_order(&self, _class: RegClass) -> &[RegGroup] {
        not_asked!()
    }

    fn sub_classes(&self, _class: RegClass) -> RegClassSet {
        not_asked!()
    }

    fn class_group_size(&self, _class: RegClass) -> usize {
        not_asked!()
    }

    fn num_regs(&self) -> usize {
        self.registers.len()
    }

    fn reg_units(&self, reg: PhysReg) -> impl Iterator<Item = RegUnit> {
        self.register(reg).units.iter().copied()
    }

    fn is_memory(&self, reg: PhysReg) -> bool {
        self.register(reg).memory
    }

    fn num_reg_groups(&self) -> usize {
        not_asked!()
    }

    fn reg_group_members(&self, _group: RegGroup) -> &[PhysReg] {
        not_asked!()
    }

    fn group_for_reg(
        &self,
        _reg: PhysReg,
        _group_index: usize,
        _class: RegClass,
    ) -> Option<RegGroup> {
        not_asked!()
    }
}
