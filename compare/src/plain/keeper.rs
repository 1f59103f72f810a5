//! The scratch keeper: what is available, searches, evictions, and edits emitted.

use original::function::{Function, Value};
use original::internal::parallel_moves::Edit;
use original::output::{Allocation, AllocationKind};
use original::reginfo::{PhysReg, RegBank, RegClass, RegUnit};

use super::{Held, Run, Slip};
use crate::number::Refused;
use crate::target::MOST_SIZE_LOG2;

impl Run<'_> {
    /// "A unit that nothing in the patch has yet made available or unavailable is
    /// available if the patch calls it free."
    fn is_available(&self, unit: usize) -> bool {
        let free = self.patch.free.contains(RegUnit::new(unit));
        self.available[unit].unwrap_or(free)
    }

    /// Makes a place's units available, or unavailable.
    pub(super) fn make_available(&mut self, place: Allocation, available: bool) {
        if let AllocationKind::PhysReg(reg) = place.kind() {
            for &unit in &self.target.register(reg).units {
                self.available[unit.index()] = Some(available);
            }
        }
    }

    /// "Search for a class: the first register of its order whose units are all
    /// available (none of them a source unit of a kept move, if asked for a
    /// cycle). Failing that: an emergency slot if the class includes slots; the
    /// evicted register if a member; else" an eviction. And of two held: "a search
    /// reuses the newest held member of its class."
    pub(super) fn search(
        &mut self,
        class: RegClass,
        for_cycle: bool,
    ) -> Result<Allocation, Refused> {
        let order = &self.target.class(class).order;
        let usable = |reg: &PhysReg| {
            let units = &self.target.register(*reg).units;
            units.iter().all(|unit| {
                let unit = unit.index();
                self.is_available(unit) && !(for_cycle && self.sources[unit])
            })
        };
        // 02 d: "the position in the order, counted from 0, at which it found its
        // register, or the order's length where none there would do".
        let found = order.iter().position(usable);
        self.position = self.position.max(found.unwrap_or(order.len()));
        if let Some(found) = found {
            return Ok(Allocation::reg(order[found]));
        }
        let bank = self.target.class(class).bank;
        if self.target.class(class).slots {
            let slot = self.slots.take(self.size_of(bank), self.slip)?;
            return Ok(Allocation::spillslot(slot));
        }
        if let Some(reg) = self.reuse(class) {
            return Ok(Allocation::reg(reg));
        }
        let last = order.last().expect("a class without slots has an order");
        self.evict(*last, bank)?;
        Ok(Allocation::reg(*last))
    }

    /// The newest held member of a class.
    fn reuse(&mut self, class: RegClass) -> Option<PhysReg> {
        let members = &self.target.class(class).members;
        let is_member = |held: &Held| members.contains(held.reg);
        let newest = match self.slip {
            Slip::OldestReused => self.held.iter().position(is_member),
            _ => self.held.iter().rposition(is_member),
        }?;
        let which = match (self.held.len(), newest) {
            (1, _) => "the one held",
            (_, 0) => "the older, the newer being no member",
            (_, _) if is_member(&self.held[0]) => "the newer, both being members",
            (_, _) => "the newer, the older being no member",
        };
        let reg = self.held[newest].reg;
        if self.slip == Slip::ByUse {
            let held = self.held.remove(newest);
            self.held.push(held);
        }
        self.note("reused", which);
        Some(reg)
    }

    /// "Before a new eviction, those that overlap the new register are brought
    /// back, and then the older if two are still held" (with one kept eviction:
    /// "bring back the evicted one"); "take a slot of the bank's size, evict the
    /// order's last into it and emit its reload."
    fn evict(&mut self, reg: PhysReg, bank: RegBank) -> Result<(), Refused> {
        let size = self.size_of(bank);
        let early = match self.slip {
            Slip::SlotFirst => Some(self.slots.take(size, self.slip)?),
            _ => None,
        };
        let before = self.held.len();
        if self.slip != Slip::OverlapUnheeded {
            self.bring_back_from("evicted", Allocation::reg(reg));
        }
        let room = match self.slip {
            Slip::OlderToo if before == 2 => 0,
            _ => self.kept_evictions - 1,
        };
        while self.held.len() > room {
            let gone = match self.slip {
                Slip::NewerForRoom => self.held.len() - 1,
                _ => 0,
            };
            self.note("evicted, no overlap", "the older brought back for room");
            self.bring_back(|at, _| at == gone);
        }
        let slot = match early {
            Some(slot) => slot,
            None => self.slots.take(size, self.slip)?,
        };
        if self.held.len() == 1 {
            self.note("evicted", "beside one that stays held");
        }
        self.held.push(Held { reg, slot, size });
        self.edits.push(Edit::EmergencyReload {
            to: reg,
            from: slot,
        });
        Ok(())
    }

    /// Brings back those that are such, by number and what they are, the older
    /// first. "To bring back is to emit the save and put the slot back."
    pub(super) fn bring_back(&mut self, such: impl Fn(usize, &Held) -> bool) {
        let mut back = Vec::new();
        let mut stay = Vec::new();
        for (at, held) in std::mem::take(&mut self.held).into_iter().enumerate() {
            if such(at, &held) {
                back.push(held);
            } else {
                stay.push(held);
            }
        }
        self.held = stay;
        if self.slip == Slip::NewerFirst {
            back.reverse();
        }
        for held in back {
            self.edits.push(Edit::EmergencySpill {
                to: held.slot,
                from: held.reg,
            });
            if self.slip != Slip::NotPutBack {
                self.slots.put_back(held.slot, held.size);
            }
        }
    }

    /// Brings back those that overlap a place: "of several for one place the older
    /// comes back first".
    pub(super) fn bring_back_from(&mut self, why: &'static str, place: Allocation) {
        let overlap = |held: &Held| self.overlap(Allocation::reg(held.reg), place);
        let mut overlaps: Vec<bool> = self.held.iter().map(overlap).collect();
        let which = match overlaps[..] {
            [true] => "the one held overlaps",
            [true, false] => "the older overlaps",
            [false, true] => "the newer overlaps",
            [true, true] => "both overlap",
            _ => return,
        };
        self.note(why, which);
        if self.slip == Slip::OneForAPlace && overlaps == [true, true] {
            overlaps[1] = false;
        }
        self.bring_back(|at, _| overlaps[at]);
    }

    /// "Emitting a move: bring back the evicted register if it overlaps source or
    /// destination, source first" (of two held "whichever overlap its source, then
    /// its destination"); "then the destination's units become available and the
    /// source's unavailable."
    pub(super) fn emit(
        &mut self,
        from: Allocation,
        to: Allocation,
        value: Value,
    ) -> Result<(), Refused> {
        self.bring_back_from("moved from", from);
        self.bring_back_from("moved into", to);
        self.copy(from, to, value)?;
        self.make_available(to, true);
        self.make_available(from, false);
        Ok(())
    }

    /// "Memory to memory goes through a scratch of the stack class."
    pub(super) fn copy(
        &mut self,
        from: Allocation,
        to: Allocation,
        value: Value,
    ) -> Result<(), Refused> {
        if self.is_memory(from) && self.is_memory(to) {
            let scratch = self.search(self.stack_class(value), false)?;
            for (from, to) in [(scratch, to), (from, scratch)] {
                self.edits.push(Edit::Move { to, from, value });
            }
        } else {
            self.edits.push(Edit::Move { to, from, value });
        }
        Ok(())
    }

    /// Puts a slot scratch back.
    pub(super) fn put_back_slot(&mut self, scratch: Allocation, value: Value) {
        if let AllocationKind::SpillSlot(slot) = scratch.kind() {
            let size = self.size_of(self.values.value_bank(value));
            let size = match self.slip {
                Slip::SizeUp => (size + 1) % (MOST_SIZE_LOG2 + 1),
                _ => size,
            };
            self.slots.put_back(slot, size);
        }
    }
}
