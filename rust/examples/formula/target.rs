//! The targets that formulas are compiled for, and the processor of each.

use std::error::Error;

use parallel_moves::{
    Class, JobBuilder, ParallelMoves, PhysReg, RegBank, RegClass, RematCost, TargetBuilder, Value,
};

use super::code::Formula;
use super::native::{Arm, Assembler, X86_64};

pub struct Target {
    pub name: &'static str,
    builder: TargetBuilder,
    /// Of the registers that hold a number.
    bank: RegBank,
    /// Its stack class, by which constants are rebuilt.
    class: RegClass,
    /// These registers, each with its units.
    pub registers: Vec<(PhysReg, Vec<u32>)>,
    /// The bytes of a slot.
    pub slot: usize,
    pub assembler: &'static dyn Assembler,
}

impl Target {
    /// Three registers, xmm0 to xmm2: most of what a formula needs must wait in slots.
    pub fn three() -> Self {
        let mut builder = TargetBuilder::default();
        let bank = builder.bank(4);
        let registers: Vec<PhysReg> = (0..3).map(|unit| builder.register(&[unit])).collect();
        let top = builder.class(Class::of(&registers).with_slots());
        let class = builder.class(Class::of(&registers));
        builder.top_level_class(bank, top).stack_class(bank, class);
        let registers = registers
            .into_iter()
            .zip((0..).map(|unit| vec![unit]))
            .collect();
        Target {
            name: "three registers",
            builder,
            bank,
            class,
            registers,
            slot: 16,
            assembler: &X86_64,
        }
    }

    /// The shipped target, of which d0 to d15 are used: everything has a register.
    pub fn shipped() -> Self {
        let builder = TargetBuilder::named("shipped").expect("it is shipped");
        let pair = |j: u32| (PhysReg::new(32 + j as usize), vec![2 * j, 2 * j + 1]);
        Target {
            name: "shipped target",
            builder,
            bank: RegBank::new(1),
            class: RegClass::new(3),
            registers: (0..16).map(pair).collect(),
            slot: 8,
            assembler: &Arm,
        }
    }

    /// Opens a formula's function: each value has a slot of its own, with its own number.
    pub fn open(&self, formula: &Formula) -> Result<ParallelMoves, Box<dyn Error>> {
        let mut job = JobBuilder::on(self.builder.clone());
        let function = job.function();
        for value in (0..formula.values).map(Value::new) {
            if formula.constants.contains_key(&value) {
                function.remat_value(self.bank, RematCost::CheaperThanLoad, self.class);
            } else {
                function.value(self.bank);
            }
            function.slot();
        }
        Ok(ParallelMoves::open(1, &job.target_and_function()?)?)
    }

    /// How many units a number has.
    pub fn width(&self) -> usize {
        self.registers[0].1.len()
    }

    pub fn units(&self, register: PhysReg) -> &[u32] {
        let found = self.registers.iter().find(|(other, _)| *other == register);
        &found.expect("formulas use no other register").1
    }
}
