//! The rules a second time: those of document 01, with the one or two kept
//! evictions of request 02 i. Written from the two papers, neither from the
//! original nor from the proved rules, so that it can be held against both.
//!
//! With one kept eviction it has to do what the original does. With two there is
//! no original, and it is the judge.

mod keeper;
mod order;
mod slots;

use std::collections::BTreeMap;

use original::function::{Function, Value};
use original::internal::parallel_moves::Edit;
use original::output::{Allocation, AllocationKind, SpillSlot};
use original::reginfo::{PhysReg, RegBank, RegClass, RegInfo};

use crate::number::Refused;
use crate::patch::Patch;
use crate::target::{MOST_SIZE_LOG2, MOST_UNITS, Target};
use crate::values::Values;
use slots::Slots;

pub(crate) use slots::Part;

/// 17: a slot is needed, its stack is empty and L are made.
pub(crate) const OUT_OF_SLOTS: Refused = Refused(17);

/// What is done otherwise on purpose, to see that it is found.
#[derive(Clone, Copy, Debug, Default, PartialEq, Eq)]
pub enum Slip {
    #[default]
    None,
    /// Of several for one place or at the end the newer comes back first.
    NewerFirst,
    /// A search reuses the oldest held member.
    OldestReused,
    /// What is reused counts as the newest.
    ByUse,
    /// The older comes back for a new eviction although the newer overlapped.
    OlderToo,
    /// For a new eviction the newer comes back.
    NewerForRoom,
    /// The overlap with the new register is not heeded.
    OverlapUnheeded,
    /// Of two that overlap a place the older alone comes back.
    OneForAPlace,
    /// The slot is taken before any comes back.
    SlotFirst,
    /// A diversion's slot is put back one size up.
    SizeUp,
    /// An evicted register's slot is not put back.
    NotPutBack,
    /// Where its stack is empty, a slot is taken from another.
    OtherSize,
    /// A hundred slots are made at most.
    FewSlots,
}

/// How often a branch of the rule for kept evictions was taken: what was done,
/// and with which of those held.
pub type Reached = BTreeMap<(&'static str, &'static str), u64>;

/// A function's slots, from patch to patch.
pub(crate) struct Plain<'a> {
    target: &'a Target,
    values: &'a Values,
    kept_evictions: usize,
    slip: Slip,
    slots: Slots,
    /// The greatest position that the searches of the last patch met.
    pub position: usize,
    pub reached: Reached,
}

impl<'a> Plain<'a> {
    /// "A new function starts with none."
    pub fn new(target: &'a Target, values: &'a Values, kept_evictions: usize, slip: Slip) -> Self {
        Plain {
            target,
            values,
            kept_evictions,
            slip,
            slots: Slots {
                stacks: vec![Vec::new(); MOST_SIZE_LOG2 + 1],
                made: 0,
                shared: None,
                first: values.slots,
                limit: match slip {
                    Slip::FewSlots => values.emergency_limit.min(100),
                    _ => values.emergency_limit,
                },
            },
            position: 0,
            reached: Reached::new(),
        }
    }

    /// How many emergency slots were made so far.
    pub fn made(&self) -> usize {
        self.slots.made
    }

    /// The edits of a patch in a frame (request 02 l), and the frame's counter after it. If it
    /// is refused, or only asked for, the slots stay as they were.
    pub fn resolve_in(
        &mut self,
        part: Part,
        patch: &Patch,
        asked: bool,
    ) -> Result<(Vec<Edit>, usize), Refused> {
        let before = self.slots.clone();
        self.slots.shared = Some(part);
        let edits = self.resolve(patch);
        let counter = self.slots.shared.as_ref().map_or(0, |part| part.counter);
        if asked || edits.is_err() {
            self.slots = before;
        }
        Ok((edits?, counter))
    }

    /// The edits of a patch. If it is refused, the slots stay as they were.
    pub fn resolve(&mut self, patch: &Patch) -> Result<Vec<Edit>, Refused> {
        let mut run = Run::new(self, patch);
        let ended = run.resolve();
        for (branch, count) in std::mem::take(&mut run.reached) {
            *self.reached.entry(branch).or_default() += count;
        }
        ended?;
        self.position = run.position;
        self.slots = run.slots;
        // "Edits are made backwards and handed out reversed."
        run.edits.reverse();
        Ok(run.edits)
    }
}

/// A register that is evicted, and the slot that it is saved in.
#[derive(Clone, Copy)]
struct Held {
    reg: PhysReg,
    slot: SpillSlot,
    size: usize,
}

/// A kept move.
struct Kept {
    source: Allocation,
    dest: Allocation,
    value: Value,
    stage: Stage,
    /// The values that it carries, in the order received.
    carried: Vec<Value>,
}

#[derive(Clone, Copy, PartialEq, Eq)]
enum Stage {
    Unvisited,
    Open,
    Closed,
}

struct Remat {
    dest: Allocation,
    value: Value,
    class: RegClass,
}

/// A value that is diverted.
struct Diversion {
    scratch: Allocation,
    first_source: Allocation,
    /// How many moves carry it.
    count: usize,
}

/// One patch being resolved.
struct Run<'a> {
    target: &'a Target,
    values: &'a Values,
    kept_evictions: usize,
    slip: Slip,
    patch: &'a Patch,
    slots: Slots,
    /// What the patch has made available or unavailable, of the register units.
    available: Vec<Option<bool>>,
    /// The evicted registers, the older first.
    held: Vec<Held>,
    /// As they are made.
    edits: Vec<Edit>,
    position: usize,
    moves: Vec<Kept>,
    without_scratch: Vec<Remat>,
    with_scratch: Vec<Remat>,
    /// The kept move that writes a unit, in a table over all units.
    writers: Vec<Option<usize>>,
    /// The units that a kept move reads.
    sources: Vec<bool>,
    diversions: BTreeMap<usize, Diversion>,
    reached: Reached,
}

impl<'a> Run<'a> {
    fn new(function: &Plain<'a>, patch: &'a Patch) -> Self {
        // "Numbers below 512 are register units and 512 + s is slot s."
        let units = MOST_UNITS + function.values.slots;
        Run {
            target: function.target,
            values: function.values,
            kept_evictions: function.kept_evictions,
            slip: function.slip,
            patch,
            slots: function.slots.clone(),
            available: vec![None; MOST_UNITS],
            held: Vec::new(),
            edits: Vec::new(),
            position: 0,
            moves: Vec::new(),
            without_scratch: Vec::new(),
            with_scratch: Vec::new(),
            writers: vec![None; units],
            sources: vec![false; units],
            diversions: BTreeMap::new(),
            reached: Reached::new(),
        }
    }

    // Places.

    /// The units of a place, in a table over all units.
    fn units(&self, place: Allocation) -> Vec<usize> {
        match place.kind() {
            AllocationKind::PhysReg(reg) => {
                let units = &self.target.register(reg).units;
                units.iter().map(|unit| unit.index()).collect()
            }
            AllocationKind::SpillSlot(slot) => vec![MOST_UNITS + slot.index()],
        }
    }

    fn overlap(&self, one: Allocation, other: Allocation) -> bool {
        let units = self.units(other);
        self.units(one).iter().any(|unit| units.contains(unit))
    }

    /// "A slot is memory; a register is memory when the target says so."
    fn is_memory(&self, place: Allocation) -> bool {
        match place.kind() {
            AllocationKind::PhysReg(reg) => self.target.register(reg).memory,
            AllocationKind::SpillSlot(_) => true,
        }
    }

    /// Whether a place is in a class ("a slot: the class includes slots").
    fn is_in(&self, class: RegClass, place: Allocation) -> bool {
        match place.kind() {
            AllocationKind::PhysReg(reg) => self.target.class(class).members.contains(reg),
            AllocationKind::SpillSlot(_) => self.target.class(class).slots,
        }
    }

    fn size_of(&self, bank: RegBank) -> usize {
        self.target.banks[bank.index()].size_log2 as usize
    }

    fn stack_class(&self, value: Value) -> RegClass {
        let bank = self.values.value_bank(value);
        self.target.stack_to_stack_class(bank)
    }

    fn note(&mut self, what: &'static str, which: &'static str) {
        *self.reached.entry((what, which)).or_default() += 1;
    }
}
