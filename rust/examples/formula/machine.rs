//! The machine of `docs/JOB.md`, with arithmetic: a unit holds a word, a slot a list of words.

use std::collections::BTreeMap;

use parallel_moves::{Allocation, AllocationKind, Edit, PhysReg, SpillSlot};

use super::allocate::{Code, Program};
use super::code::{Formula, Operator};
use super::lime::Sample;
use super::target::Target;

/// A number as the words of so many units, the lowest first, and back.
pub fn words(number: f64, units: usize) -> Vec<u64> {
    let bits = number.to_bits();
    if units == 1 {
        vec![bits]
    } else {
        vec![bits & 0xffff_ffff, bits >> 32]
    }
}

fn number(words: &[u64]) -> f64 {
    match *words {
        [bits] => f64::from_bits(bits),
        [low, high] => f64::from_bits(high << 32 | low),
        _ => unreachable!("a number has one word or two"),
    }
}

struct Machine<'a> {
    formula: &'a Formula,
    target: &'a Target,
    units: BTreeMap<u32, u64>,
    slots: BTreeMap<SpillSlot, Vec<u64>>,
}

/// Runs a compiled formula.
pub fn run(formula: &Formula, target: &Target, program: &Program, sample: Sample) -> f64 {
    let inputs = sample.into_iter().enumerate();
    let mut machine = Machine {
        formula,
        target,
        units: BTreeMap::new(),
        slots: inputs
            .map(|(slot, input)| (SpillSlot::new(slot), words(input, target.width())))
            .collect(),
    };
    let mut block = 0;
    loop {
        match machine.block(&program.blocks[block]) {
            Next::Block(next) => block = next,
            Next::Rate(rate) => return rate,
        }
    }
}

enum Next {
    Block(usize),
    Rate(f64),
}

impl Machine<'_> {
    fn block(&mut self, code: &[Code]) -> Next {
        for step in code {
            match *step {
                Code::Edit(edit) => self.edit(edit),
                Code::Compute(operator, [to, left, right]) => {
                    let (left, right) = (self.number(left), self.number(right));
                    let result = match operator {
                        Operator::Add => left + right,
                        Operator::Subtract => left - right,
                        Operator::Multiply => left * right,
                        Operator::Divide => left / right,
                    };
                    self.write(to.into(), words(result, self.target.width()));
                }
                Code::Branch([left, right], [then, otherwise]) => {
                    let below = self.number(left) < self.number(right);
                    return Next::Block(if below { then } else { otherwise });
                }
                Code::Jump(to) => return Next::Block(to),
                Code::Return(register) => return Next::Rate(self.number(register)),
            }
        }
        unreachable!("a block ends in a step that leads on")
    }

    fn edit(&mut self, edit: Edit) {
        match edit {
            Edit::Move { to, from, .. } => self.write(to, self.read(from)),
            Edit::EmergencySpill { to, from } => self.write(to.into(), self.read(from.into())),
            Edit::EmergencyReload { to, from } => self.write(to.into(), self.read(from.into())),
            Edit::Rematerialize { to, value } => {
                let constant = words(self.formula.constants[&value], self.target.width());
                self.write(to, constant);
            }
        }
    }

    fn number(&self, register: PhysReg) -> f64 {
        number(&self.read(register.into()))
    }

    fn read(&self, place: Allocation) -> Vec<u64> {
        match place.kind() {
            AllocationKind::PhysReg(register) => {
                let units = self.target.units(register).iter();
                units.map(|unit| self.units[unit]).collect()
            }
            AllocationKind::SpillSlot(slot) => self.slots[&slot].clone(),
        }
    }

    fn write(&mut self, place: Allocation, words: Vec<u64>) {
        match place.kind() {
            AllocationKind::PhysReg(register) => {
                let units = self.target.units(register).iter().copied();
                self.units.extend(units.zip(words));
            }
            AllocationKind::SpillSlot(slot) => {
                self.slots.insert(slot, words);
            }
        }
    }
}
