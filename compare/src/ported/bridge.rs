//! The traits of the original, read into a builder: what `docs/PORTING.md` shows.

use judge::calls::Function as Judged;
use original as regalloc3;

use parallel_moves::{Class, JobBuilder, PhysReg, RegBank, RegClass, RematCost, TargetBuilder};
use regalloc3::function::Function;
use regalloc3::reginfo::RegInfo;

/// The target of a `RegInfo`. Banks, registers and classes keep their numbers.
fn target(reginfo: &impl RegInfo) -> TargetBuilder {
    let bank_of = |bank: regalloc3::reginfo::RegBank| RegBank::new(bank.index());
    let class_of = |class: regalloc3::reginfo::RegClass| RegClass::new(class.index());
    let register_of = |reg: regalloc3::reginfo::PhysReg| PhysReg::new(reg.index());
    let mut target = TargetBuilder::default();
    for bank in reginfo.banks() {
        target.bank(reginfo.spillslot_size(bank).log2_bytes());
    }
    for reg in reginfo.regs() {
        let bank = reginfo
            .bank_for_reg(reg)
            .expect("see `What cannot be said`");
        let units: Vec<u32> = reginfo
            .reg_units(reg)
            .map(|unit| unit.index() as u32)
            .collect();
        target.of_bank(bank_of(bank));
        match reginfo.is_memory(reg) {
            true => target.memory_register(units[0]),
            false => target.register(&units),
        };
    }
    for class in reginfo.classes() {
        let members: Vec<PhysReg> = reginfo
            .class_members(class)
            .into_iter()
            .map(register_of)
            .collect();
        let order: Vec<PhysReg> = reginfo
            .allocation_order(class)
            .iter()
            .copied()
            .map(register_of)
            .collect();
        let bank = bank_of(reginfo.bank_for_class(class));
        let described = Class::of(&members).in_order(&order).of_bank(bank);
        target.class(match reginfo.class_includes_spillslots(class) {
            true => described.with_slots(),
            false => described,
        });
    }
    for bank in reginfo.banks() {
        let (top, stack) = (
            reginfo.top_level_class(bank),
            reginfo.stack_to_stack_class(bank),
        );
        target.top_level_class(bank_of(bank), class_of(top));
        target.stack_class(bank_of(bank), class_of(stack));
    }
    target
}

/// What `prepare` is given: the target, and the values and spill slots of a `Function`.
fn function(reginfo: &impl RegInfo, func: &impl Function, num_spill_slots: usize) -> JobBuilder {
    let mut job = JobBuilder::on(target(reginfo));
    let function = job.function();
    function.slots(num_spill_slots as u32);
    for value in func.values() {
        let bank = RegBank::new(func.value_bank(value).index());
        match func.can_rematerialize(value) {
            None => function.value(bank),
            Some((cost, class)) => {
                let cost = match cost {
                    regalloc3::function::RematCost::CheaperThanMove => RematCost::CheaperThanMove,
                    regalloc3::function::RematCost::CheaperThanLoad => RematCost::CheaperThanLoad,
                };
                function.remat_value(bank, cost, RegClass::new(class.index()))
            }
        };
    }
    job
}

/// The same of the judge's tables, with their limit of emergency slots.
pub fn job(judged: &Judged) -> JobBuilder {
    let values = &judged.values;
    let mut job = function(&judged.target, values, values.slots);
    job.function()
        .emergency_slots(values.emergency_limit as u32);
    job
}
