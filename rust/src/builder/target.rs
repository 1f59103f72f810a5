//! Targets under construction.

use super::{Part, count};
use crate::entity::{Allocation, AllocationKind, PhysReg, RegBank, RegClass, RegUnit};

#[derive(Clone, Debug, Default, PartialEq, Eq)]
pub(crate) struct Bank {
    pub size_log2: u32,
    /// None until it is said, which is refused.
    pub top_level_class: Option<RegClass>,
    pub stack_class: Option<RegClass>,
}

#[derive(Clone, Debug, PartialEq, Eq)]
pub(crate) struct Register {
    pub memory: bool,
    pub bank: RegBank,
    pub units: Vec<RegUnit>,
}

/// The number of a class that is none: it is refused, since there are 64 at most.
const NO_CLASS: u32 = u32::MAX;

/// A target under construction, of a [`JobBuilder`](crate::JobBuilder).
///
/// Registers and classes are of the bank that was begun last, or of the one that
/// [`TargetBuilder::of_bank`] says.
#[derive(Clone, Debug, Default, PartialEq, Eq)]
pub struct TargetBuilder {
    /// Where it is said; else as many as the registers name.
    pub(crate) units: Option<u32>,
    pub(crate) banks: Vec<Bank>,
    pub(crate) registers: Vec<Register>,
    pub(crate) classes: Vec<Class>,
    /// The bank of what is added.
    bank: Option<RegBank>,
}

impl TargetBuilder {
    /// Says how many units there are. Unless it is said there are as many as the
    /// registers name.
    pub fn units(&mut self, count: u32) -> &mut Self {
        self.units = Some(count);
        self
    }

    /// Begins a bank, whose emergency slots have 2^`slot_size_log2` bytes. What is added
    /// next is of it. It needs a [top-level class](TargetBuilder::top_level_class) and a
    /// [stack class](TargetBuilder::stack_class).
    pub fn bank(&mut self, slot_size_log2: u32) -> RegBank {
        self.banks.push(Bank {
            size_log2: slot_size_log2,
            ..Bank::default()
        });
        let bank = RegBank::new(self.banks.len() - 1);
        self.bank = Some(bank);
        bank
    }

    /// Says of which bank registers and classes are from here on.
    pub fn of_bank(&mut self, bank: RegBank) -> &mut Self {
        self.bank = Some(bank);
        self
    }

    /// Adds a register with these units.
    pub fn register(&mut self, units: &[u32]) -> PhysReg {
        self.add_register(false, units)
    }

    /// Adds a memory register, which has one unit: a place in memory, as an argument on
    /// the stack is.
    pub fn memory_register(&mut self, unit: u32) -> PhysReg {
        self.add_register(true, &[unit])
    }

    fn add_register(&mut self, memory: bool, units: &[u32]) -> PhysReg {
        self.registers.push(Register {
            memory,
            bank: self.bank.unwrap_or(RegBank(0)),
            units: units.iter().map(|&unit| RegUnit(unit)).collect(),
        });
        PhysReg::new(self.registers.len() - 1)
    }

    /// Adds a class.
    pub fn class(&mut self, class: Class) -> RegClass {
        let bank = class.bank.or(self.bank).unwrap_or(RegBank(0));
        self.classes.push(Class {
            bank: Some(bank),
            ..class
        });
        RegClass::new(self.classes.len() - 1)
    }

    /// Says which class of a bank is searched where moves form a cycle. It includes
    /// slots.
    ///
    /// # Panics
    ///
    /// If the bank is none of this target's.
    pub fn top_level_class(&mut self, bank: RegBank, class: RegClass) -> &mut Self {
        self.banks[bank.index()].top_level_class = Some(class);
        self
    }

    /// Says which class of a bank is searched where a move goes from memory to memory.
    /// It includes no slots, and its order no memory register.
    ///
    /// # Panics
    ///
    /// If the bank is none of this target's.
    pub fn stack_class(&mut self, bank: RegBank, class: RegClass) -> &mut Self {
        self.banks[bank.index()].stack_class = Some(class);
        self
    }

    /// Whether two places overlap: they share a unit, or are the same slot. A register
    /// that is none of this target's overlaps nothing but itself.
    ///
    /// ```
    /// use parallel_moves::{PhysReg, SpillSlot, TargetBuilder};
    ///
    /// // d0 has the units of s0 and s1.
    /// let vfp = TargetBuilder::named("vfp").unwrap();
    /// let [s1, s2, d0] = [1, 2, 32].map(PhysReg::new);
    /// assert!(vfp.overlap(s1, d0) && vfp.overlap(d0, s1));
    /// assert!(!vfp.overlap(s2, d0) && !vfp.overlap(s2, SpillSlot::new(2)));
    /// ```
    #[must_use]
    pub fn overlap(&self, one: impl Into<Allocation>, other: impl Into<Allocation>) -> bool {
        let (one, other) = (one.into(), other.into());
        one == other || self.common_unit(one, other).is_some()
    }

    /// The first unit of a place that another has too.
    pub(crate) fn common_unit(&self, one: Allocation, other: Allocation) -> Option<RegUnit> {
        let units = self.units_of(other);
        let mut own = self.units_of(one).iter();
        own.find(|unit| units.contains(unit)).copied()
    }

    /// The units of a place; a slot has none.
    pub(crate) fn units_of(&self, place: Allocation) -> &[RegUnit] {
        match place.kind() {
            AllocationKind::SpillSlot(_) => &[],
            AllocationKind::PhysReg(register) => {
                let register = self.registers.get(register.index());
                register.map_or(&[], |register| &register.units)
            }
        }
    }

    /// Whether a place is memory.
    pub(crate) fn is_memory(&self, place: Allocation) -> bool {
        match place.kind() {
            AllocationKind::SpillSlot(_) => true,
            AllocationKind::PhysReg(register) => {
                let register = self.registers.get(register.index());
                register.is_some_and(|register| register.memory)
            }
        }
    }

    /// Whether a class has a place.
    pub(crate) fn is_in_class(&self, place: Allocation, class: RegClass) -> bool {
        let class = self.classes.get(class.index());
        class.is_some_and(|class| match place.kind() {
            AllocationKind::SpillSlot(_) => class.slots,
            AllocationKind::PhysReg(register) => class.members.contains(&register),
        })
    }

    /// How many units there are.
    pub(crate) fn unit_count(&self) -> u32 {
        let named = self.registers.iter().flat_map(|register| &register.units);
        let past = named.map(|unit| unit.0.saturating_add(1));
        self.units.unwrap_or_else(|| past.max().unwrap_or(0))
    }

    pub(super) fn each_number(&self, put: &mut impl FnMut(u32, Part)) {
        put(self.unit_count(), Part::Units);
        put(count(self.banks.len()), Part::Banks);
        for (bank, index) in self.banks.iter().zip(0..) {
            let part = Part::Bank(RegBank(index));
            put(bank.size_log2, part);
            for class in [bank.top_level_class, bank.stack_class] {
                put(class.map_or(NO_CLASS, |class| class.0), part);
            }
        }
        put(count(self.registers.len()), Part::Registers);
        for (register, index) in self.registers.iter().zip(0..) {
            let part = Part::Register(PhysReg(index));
            put(register.memory.into(), part);
            put(register.bank.0, part);
            put(count(register.units.len()), part);
            register.units.iter().for_each(|unit| put(unit.0, part));
        }
        put(count(self.classes.len()), Part::Classes);
        for (class, index) in self.classes.iter().zip(0..) {
            let part = Part::Class(RegClass(index));
            put(class.bank.unwrap_or(RegBank(0)).0, part);
            put(class.slots.into(), part);
            for list in [&class.members, &class.order] {
                put(count(list.len()), part);
                list.iter().for_each(|register| put(register.0, part));
            }
        }
    }
}

/// A class of a target: its members, whether it includes slots, and the order in which
/// its registers are taken as scratch.
///
/// ```
/// use parallel_moves::{Class, PhysReg};
///
/// let [r0, r1, r2] = [0, 1, 2].map(PhysReg::new);
/// // Register 2 is never taken as scratch, and register 1 is the best.
/// let class = Class::of(&[r0, r1, r2]).in_order(&[r1, r0]).with_slots();
/// ```
#[derive(Clone, Debug, PartialEq, Eq)]
pub struct Class {
    /// None: that of what is added.
    pub(crate) bank: Option<RegBank>,
    pub(crate) slots: bool,
    pub(crate) members: Vec<PhysReg>,
    pub(crate) order: Vec<PhysReg>,
}

impl Class {
    /// A class of registers without slots, whose order is that of the list, the best
    /// first.
    #[must_use]
    pub fn of(members: &[PhysReg]) -> Self {
        Class {
            bank: None,
            slots: false,
            members: members.to_vec(),
            order: members.to_vec(),
        }
    }

    /// The same with slots.
    #[must_use]
    pub fn with_slots(self) -> Self {
        Class {
            slots: true,
            ..self
        }
    }

    /// The same with another order, the best first. What is not listed is never taken as
    /// scratch. The last of a class without slots may be saved, used and loaded back
    /// although it is not free.
    #[must_use]
    pub fn in_order(self, order: &[PhysReg]) -> Self {
        Class {
            order: order.to_vec(),
            ..self
        }
    }

    /// The same of this bank, whichever was begun last.
    #[must_use]
    pub fn of_bank(self, bank: RegBank) -> Self {
        Class {
            bank: Some(bank),
            ..self
        }
    }
}
