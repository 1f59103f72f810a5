//! Functions under construction.

use super::{Part, count};
use crate::entity::{RegBank, RegClass, SpillSlot, Value};

/// As many emergency slots are always enough.
const MOST_EMERGENCY_SLOTS: u32 = 2048;

/// What rebuilding a value costs.
#[derive(Clone, Copy, Debug, PartialEq, Eq, PartialOrd, Ord, Hash)]
pub enum RematCost {
    /// Less than a move between registers.
    CheaperThanMove,
    /// Less than a load, but not than a move.
    CheaperThanLoad,
}

impl RematCost {
    fn number(self) -> u32 {
        match self {
            RematCost::CheaperThanMove => 1,
            RematCost::CheaperThanLoad => 2,
        }
    }
}

#[derive(Clone, Debug, PartialEq, Eq)]
pub(crate) struct ValueInfo {
    pub bank: RegBank,
    pub remat: Option<(RematCost, RegClass)>,
}

/// A function under construction, of a [`JobBuilder`](crate::JobBuilder).
///
/// Unless it is said otherwise it has no ordinary slots, and 2,048 emergency slots may be
/// made, which is always enough.
#[derive(Clone, Debug, PartialEq, Eq)]
pub struct FunctionBuilder {
    pub(crate) values: Vec<ValueInfo>,
    pub(crate) slots: u32,
    pub(crate) emergency_slots: u32,
}

impl Default for FunctionBuilder {
    fn default() -> Self {
        FunctionBuilder {
            values: Vec::new(),
            slots: 0,
            emergency_slots: MOST_EMERGENCY_SLOTS,
        }
    }
}

impl FunctionBuilder {
    /// Adds a value of a bank that cannot be rebuilt.
    pub fn value(&mut self, bank: RegBank) -> Value {
        self.add_value(bank, None)
    }

    /// Adds a value that can be rebuilt in the places of a class, at such a cost.
    pub fn remat_value(&mut self, bank: RegBank, cost: RematCost, class: RegClass) -> Value {
        self.add_value(bank, Some((cost, class)))
    }

    fn add_value(&mut self, bank: RegBank, remat: Option<(RematCost, RegClass)>) -> Value {
        self.values.push(ValueInfo { bank, remat });
        Value::new(self.values.len() - 1)
    }

    /// Adds an ordinary slot.
    pub fn slot(&mut self) -> SpillSlot {
        let slot = SpillSlot(self.slots);
        self.slots = self.slots.saturating_add(1);
        slot
    }

    /// Says how many ordinary slots there are in all. They are numbered from 0 on, and
    /// the emergency slots after them.
    pub fn slots(&mut self, count: u32) -> &mut Self {
        self.slots = count;
        self
    }

    /// Says how many emergency slots may be made.
    pub fn emergency_slots(&mut self, most: u32) -> &mut Self {
        self.emergency_slots = most;
        self
    }

    pub(super) fn each_number(&self, put: &mut impl FnMut(u32, Part)) {
        put(count(self.values.len()), Part::Values);
        put(self.slots, Part::Slots);
        put(self.emergency_slots, Part::EmergencySlots);
        for (value, index) in self.values.iter().zip(0..) {
            let part = Part::Value(Value(index));
            put(value.bank.0, part);
            match value.remat {
                None => put(0, part),
                Some((cost, class)) => {
                    put(cost.number(), part);
                    put(class.0, part);
                }
            }
        }
    }
}
