//! The calls that a compiler makes, of the original and of ours.

use judge::calls::Function;
use original::function::Value;
use original::internal::parallel_moves::{Edit, ParallelMoves};
use original::output::{Allocation, AllocationKind, SpillSlot};
use original::reginfo::PhysReg;
use parallel_moves::{JobBuilder, regalloc3};

use super::OUT_OF_SLOTS;

/// A place, by its number.
#[derive(Clone, Copy)]
pub enum Place {
    Register(usize),
    Slot(usize),
}

impl Place {
    /// Slot s is 2 s, register r is 2 r + 1.
    pub fn of(code: u32) -> Self {
        match code % 2 {
            1 => Place::Register(code as usize / 2),
            _ => Place::Slot(code as usize / 2),
        }
    }

    pub fn code(self) -> u32 {
        match self {
            Place::Register(number) => 2 * number as u32 + 1,
            Place::Slot(number) => 2 * number as u32,
        }
    }
}

/// The original's methods, as they are called.
pub trait Calls {
    fn new_parallel_move(&mut self);
    fn add_move(&mut self, source: Place, dest: Place, value: usize);
    fn add_remat(&mut self, dest: Place, value: usize);
    /// The number of the refusal, if it is refused.
    fn resolve(&mut self, is_unit_free: impl Fn(usize) -> bool) -> Result<(), u8>;
    fn edits(&self) -> Vec<String>;
    /// The emergency slots that the last patch made, and their sizes.
    fn new_spillslots(&self) -> Vec<(usize, u32)>;
}

/// The original, with what it is given at every call.
pub struct Original<'a> {
    function: &'a Function,
    moves: ParallelMoves,
    /// How many emergency slots were made, and the last patch's.
    made: usize,
    new: Vec<(usize, u32)>,
}

impl<'a> Original<'a> {
    pub fn prepared(function: &'a Function) -> Self {
        let mut moves = ParallelMoves::new();
        let values = &function.values;
        moves.prepare(values, values.slots);
        Original {
            function,
            moves,
            made: 0,
            new: Vec::new(),
        }
    }

    fn allocation(place: Place) -> Allocation {
        match place {
            Place::Register(number) => Allocation::reg(PhysReg::new(number)),
            Place::Slot(number) => Allocation::spillslot(SpillSlot::new(number)),
        }
    }
}

impl Calls for Original<'_> {
    fn new_parallel_move(&mut self) {
        self.moves.new_parallel_move();
    }

    fn add_move(&mut self, source: Place, dest: Place, value: usize) {
        let Function { target, values, .. } = self.function;
        let (source, dest) = (Self::allocation(source), Self::allocation(dest));
        self.moves
            .add_move(source, dest, Value::new(value), values, target);
    }

    fn add_remat(&mut self, dest: Place, value: usize) {
        let Function { target, values, .. } = self.function;
        let dest = Self::allocation(dest);
        self.moves
            .add_remat(dest, Value::new(value), values, target);
    }

    /// Past the limit it is still handed slots, so that it runs to its end, and is then
    /// refused.
    fn resolve(&mut self, is_unit_free: impl Fn(usize) -> bool) -> Result<(), u8> {
        let Function { target, values, .. } = self.function;
        self.new.clear();
        self.moves.resolve(
            target,
            values,
            |unit| is_unit_free(unit.index()),
            |size| {
                let slot = values.slots + self.made;
                self.made += 1;
                self.new.push((slot, size.log2_bytes()));
                SpillSlot::new(slot)
            },
        );
        match self.made > values.emergency_limit {
            true => Err(OUT_OF_SLOTS),
            false => Ok(()),
        }
    }

    fn edits(&self) -> Vec<String> {
        self.moves.edits().map(text).collect()
    }

    fn new_spillslots(&self) -> Vec<(usize, u32)> {
        self.new.clone()
    }
}

/// An edit of the original, as ours are printed.
fn text(edit: Edit) -> String {
    let place = |place: Allocation| match place.kind() {
        AllocationKind::PhysReg(reg) => format!("r{}", reg.index()),
        AllocationKind::SpillSlot(slot) => format!("s{}", slot.index()),
    };
    match edit {
        Edit::Move { to, from, value } => {
            format!("M {} {} {}", place(to), place(from), value.index())
        }
        Edit::Rematerialize { to, value } => format!("R {} {}", place(to), value.index()),
        Edit::EmergencySpill { to, from } => format!("S s{} r{}", to.index(), from.index()),
        Edit::EmergencyReload { to, from } => format!("L r{} s{}", to.index(), from.index()),
        Edit::IndirectRematerialize { .. } => unreachable!("the module never emits it"),
    }
}

/// A fault that must be found.
#[derive(Clone, Copy, PartialEq)]
pub enum Fault {
    None,
    /// The last entry is added before the one before it.
    Order,
    /// Unit 0 is never free.
    Free,
    /// Edits are given in the order in which they are made.
    Edits,
    /// A patch keeps the entries of the one before.
    Kept,
    /// A slot is said to be of the next size.
    Size,
}

impl Fault {
    pub fn named(name: &str) -> Option<Self> {
        match name {
            "order" => Some(Fault::Order),
            "free" => Some(Fault::Free),
            "edits" => Some(Fault::Edits),
            "kept" => Some(Fault::Kept),
            "size" => Some(Fault::Size),
            _ => None,
        }
    }
}

/// Ours, at times with a fault.
pub struct Ours {
    moves: regalloc3::ParallelMoves,
    fault: Fault,
    /// With the fault of another order: the entry that waits for the next.
    waits: Option<(Place, Place, usize)>,
}

impl Ours {
    pub fn new(fault: Fault) -> Self {
        Ours {
            moves: regalloc3::ParallelMoves::new(),
            fault,
            waits: None,
        }
    }

    pub fn prepare(&mut self, function: &JobBuilder) -> Result<(), u8> {
        let prepared = self.moves.prepare(function);
        prepared.map_err(|refusal| refusal.number())
    }

    pub fn prepare_bytes(&mut self, bytes: &[u8]) -> Result<(), u8> {
        let prepared = self.moves.prepare_bytes(bytes);
        prepared.map_err(|refusal| refusal.number())
    }

    fn allocation(place: Place) -> parallel_moves::Allocation {
        use parallel_moves::{Allocation, PhysReg, SpillSlot};
        match place {
            Place::Register(number) => Allocation::reg(PhysReg::new(number)),
            Place::Slot(number) => Allocation::spillslot(SpillSlot::new(number)),
        }
    }

    fn put(&mut self, (source, dest, value): (Place, Place, usize)) {
        let (source, dest) = (Self::allocation(source), Self::allocation(dest));
        self.moves
            .add_move(source, dest, parallel_moves::Value::new(value));
    }
}

impl Calls for Ours {
    fn new_parallel_move(&mut self) {
        self.waits = None;
        if self.fault != Fault::Kept {
            self.moves.new_parallel_move();
        }
    }

    fn add_move(&mut self, source: Place, dest: Place, value: usize) {
        match (self.fault, self.waits.take()) {
            (Fault::Order, None) => self.waits = Some((source, dest, value)),
            (_, earlier) => {
                self.put((source, dest, value));
                earlier.into_iter().for_each(|entry| self.put(entry));
            }
        }
    }

    fn add_remat(&mut self, dest: Place, value: usize) {
        self.moves
            .add_remat(Self::allocation(dest), parallel_moves::Value::new(value));
    }

    fn resolve(&mut self, is_unit_free: impl Fn(usize) -> bool) -> Result<(), u8> {
        if let Some(entry) = self.waits.take() {
            self.put(entry);
        }
        let never_free = (self.fault == Fault::Free).then_some(0);
        let is_free = |unit: parallel_moves::RegUnit| {
            is_unit_free(unit.index()) && Some(unit.index()) != never_free
        };
        let resolved = self.moves.resolve(is_free);
        resolved.map_err(|refusal| refusal.number())
    }

    fn edits(&self) -> Vec<String> {
        let mut edits: Vec<String> = self.moves.edits().map(|edit| edit.to_string()).collect();
        if self.fault == Fault::Edits {
            edits.reverse();
        }
        edits
    }

    fn new_spillslots(&self) -> Vec<(usize, u32)> {
        let more = u32::from(self.fault == Fault::Size);
        let slots = self.moves.new_spillslots();
        slots
            .map(|(slot, size)| (slot.index(), size + more))
            .collect()
    }
}
