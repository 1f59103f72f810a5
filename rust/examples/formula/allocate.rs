//! Gives each value a register while it is used, block by block, and has the edges between blocks resolved.

use std::cmp::Reverse;
use std::collections::{BTreeMap, BTreeSet};
use std::error::Error;

use parallel_moves::{
    Allocation, AllocationKind, Edit, ParallelMoves, Patch, PhysReg, SpillSlot, Value,
};

use super::code::{Block, End, Formula, Instruction, Operator};
use super::target::Target;

/// A step of a compiled formula.
pub enum Code {
    Edit(Edit),
    /// To, left, right.
    Compute(Operator, [PhysReg; 3]),
    /// To the first block if the first register is below the second, else to the second block.
    Branch([PhysReg; 2], [usize; 2]),
    Jump(usize),
    Return(PhysReg),
}

/// A compiled formula: its blocks, and for each edge its edits as well.
pub struct Program {
    pub blocks: Vec<Vec<Code>>,
    pub edges: Vec<Vec<Edit>>,
}

/// Where each value lies that is needed.
type Places = BTreeMap<Value, Allocation>;

/// Compiles a formula.
///
/// # Errors
///
/// What the library refuses; nothing, where this is right.
pub fn compile(formula: &Formula, target: &Target) -> Result<Program, Box<dyn Error>> {
    let mut starts = vec![None; formula.blocks.len()];
    // The inputs wait in their slots.
    let inputs = (0..formula.inputs).map(Value::new);
    starts[0] = Some(inputs.map(|value| (value, own_slot(value))).collect());
    let mut compiler = Compiler {
        formula,
        target,
        live: formula.live(),
        starts,
        moves: target.open(formula)?,
        places: Places::new(),
        code: Vec::new(),
    };
    let mut program = Program {
        blocks: Vec::new(),
        edges: Vec::new(),
    };
    for (number, block) in formula.blocks.iter().enumerate() {
        compiler.places = compiler.starts[number]
            .clone()
            .expect("what leads to it stands before it");
        program.edges.extend(compiler.block(block)?);
        program.blocks.push(std::mem::take(&mut compiler.code));
    }
    Ok(program)
}

fn own_slot(value: Value) -> Allocation {
    SpillSlot::new(value.index()).into()
}

struct Compiler<'a> {
    formula: &'a Formula,
    target: &'a Target,
    live: Vec<BTreeSet<Value>>,
    /// Where each block finds its values, once a block that leads to it has said so.
    starts: Vec<Option<Places>>,
    moves: ParallelMoves,
    /// Where the values lie at this point of a block, and its code so far.
    places: Places,
    code: Vec<Code>,
}

impl Compiler<'_> {
    /// Compiles a block; answers the edits of its edge, if it ends in a jump.
    fn block(&mut self, block: &Block) -> Result<Option<Vec<Edit>>, Box<dyn Error>> {
        for (at, instruction) in block.instructions.iter().enumerate() {
            let [left, right] = self.both(block, at, instruction.operands);
            self.forget(block, at + 1);
            let to = self.vacate(block, at, &[]);
            self.places.insert(instruction.result, to.into());
            self.code
                .push(Code::Compute(instruction.operator, [to, left, right]));
        }
        let at = block.instructions.len();
        match &block.end {
            End::Branch(values, blocks) => {
                let registers = self.both(block, at, *values);
                self.code.push(Code::Branch(registers, *blocks));
                for &next in blocks {
                    let live = &self.live[next];
                    let places = self.places.iter().filter(|(value, _)| live.contains(value));
                    self.starts[next] =
                        Some(places.map(|(&value, &place)| (value, place)).collect());
                }
                Ok(None)
            }
            End::Jump(to, arguments) => self.cross(*to, arguments).map(Some),
            End::Return(value) => {
                let register = self.fetch(block, at, *value, &[]);
                self.code.push(Code::Return(register));
                Ok(None)
            }
        }
    }

    /// Brings both operands into registers.
    fn both(&mut self, block: &Block, at: usize, [left, right]: [Value; 2]) -> [PhysReg; 2] {
        let first = self.fetch(block, at, left, &[right]);
        [first, self.fetch(block, at, right, &[left])]
    }

    /// Brings a value into a register, other than those of the values that are kept.
    fn fetch(&mut self, block: &Block, at: usize, value: Value, kept: &[Value]) -> PhysReg {
        let place = self.places.get(&value).copied();
        if let Some(AllocationKind::PhysReg(register)) = place.map(Allocation::kind) {
            return register;
        }
        let register = self.vacate(block, at, kept);
        let to = register.into();
        self.code.push(Code::Edit(match place {
            Some(from) => Edit::Move { to, from, value },
            // A constant.
            None => Edit::Rematerialize { to, value },
        }));
        self.places.insert(value, to);
        register
    }

    /// A register for something new: one that holds nothing, or else the one whose value is not needed for the
    /// longest time. That goes to its slot; a constant is made again later.
    fn vacate(&mut self, block: &Block, at: usize, kept: &[Value]) -> PhysReg {
        let holder = |register: PhysReg| {
            let mut places = self.places.iter();
            let held = places.find(|(_, place)| **place == register.into());
            (register, held.map(|(&value, _)| value))
        };
        let registers = self
            .target
            .registers
            .iter()
            .map(|(register, _)| holder(*register));
        let open = registers.filter(|(_, value)| value.is_none_or(|value| !kept.contains(&value)));
        // Nothing comes before a value, and of these comes first what only another block needs.
        let wait = |value| Reverse(next_use(block, at, value).unwrap_or(usize::MAX));
        let first = open.min_by_key(|(_, value)| value.map(wait));
        let (register, value) = first.expect("there are three registers at least");
        if let Some(value) = value {
            self.places.remove(&value);
            if !self.formula.constants.contains_key(&value) {
                let (to, from) = (own_slot(value), register.into());
                self.code.push(Code::Edit(Edit::Move { to, from, value }));
                self.places.insert(value, to);
            }
        }
        register
    }

    /// Forgets the values that nothing needs from `at` on.
    fn forget(&mut self, block: &Block, at: usize) {
        let next = block.end.blocks();
        let live_out = |value: &Value| next.iter().any(|&next| self.live[next].contains(value));
        self.places
            .retain(|value, _| next_use(block, at, *value).is_some() || live_out(value));
    }

    /// Goes to a block where paths come together. The first one to do so says where the values lie there; from
    /// then on each must bring them to these places, all at once. This is a patch.
    fn cross(&mut self, to: usize, arguments: &[Value]) -> Result<Vec<Edit>, Box<dyn Error>> {
        let parameters = &self.formula.blocks[to].parameters;
        if self.starts[to].is_none() {
            self.starts[to] = Some(self.places_at(to, parameters, arguments));
        }
        let dests = self.starts[to].as_ref().expect("it was just said");
        let mut patch = Patch::new();
        for (value, &dest) in dests {
            // A parameter is what its argument is; another value stays itself.
            let parameter = parameters.iter().position(|parameter| parameter == value);
            let value = parameter.map_or(*value, |index| arguments[index]);
            match self.places.get(&value) {
                Some(&source) if source == dest => {}
                Some(&source) => patch.add_move(source, dest, value),
                None => patch.add_remat(dest, value),
            }
        }
        // What lies in other registers is not needed any more.
        for (register, units) in &self.target.registers {
            if !dests.values().any(|dest| *dest == (*register).into()) {
                patch.free(units);
            }
        }
        let edits: Vec<Edit> = self.moves.resolve(&patch)?.iter().collect();
        self.code.extend(edits.iter().copied().map(Code::Edit));
        self.code.push(Code::Jump(to));
        Ok(edits)
    }

    /// Values stay where they are; a parameter takes the place of its argument, unless that is taken, or there
    /// is none: then its own slot.
    fn places_at(&self, to: usize, parameters: &[Value], arguments: &[Value]) -> Places {
        let stays = |&value: &Value| (value, self.places[&value]);
        let mut places: Places = self.live[to].iter().map(stays).collect();
        for (&parameter, argument) in parameters.iter().zip(arguments) {
            let place = self.places.get(argument).copied();
            let open = place.filter(|place| !places.values().any(|taken| taken == place));
            places.insert(parameter, open.unwrap_or(own_slot(parameter)));
        }
        places
    }
}

/// Which instruction from `at` on is the first to read a value; their count, where the block's end is.
fn next_use(block: &Block, at: usize, value: Value) -> Option<usize> {
    let reads = |instruction: &Instruction| instruction.operands.contains(&value);
    let first = block.instructions.iter().skip(at).position(reads);
    let in_the_end = block.end.values().contains(&value);
    first
        .map(|index| at + index)
        .or(in_the_end.then_some(block.instructions.len()))
}
