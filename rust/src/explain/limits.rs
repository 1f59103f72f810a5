//! What is outside a limit in a target or a function, or names nothing there, or is listed
//! twice.

use std::collections::HashSet;
use std::hash::Hash;

use super::counted;
use crate::builder::{JobBuilder, Part};
use crate::entity::{PhysReg, RegBank, RegClass};
use crate::refusal::Refusal;

pub(super) const MOST_ENTRIES: usize = 128;
const MOST_UNITS: usize = 512;
const MOST_BANKS: usize = 8;
const MOST_REGISTERS: usize = 512;
const MOST_UNITS_OF_REGISTER: usize = 8;
const MOST_CLASSES: usize = 64;
const MOST_ORDER_ENTRIES: usize = 4096;
const MOST_SIZE_LOG2: usize = 31;
const MOST_VALUES: usize = 4096;
const MOST_SLOTS: usize = 4096;
const MOST_EMERGENCY_SLOTS: usize = 2048;
const MOST_PATCHES: usize = 1024;

/// What is wrong with a part of a target or function, or a count.
pub(super) fn why(job: &JobBuilder, part: Part, refusal: Refusal) -> Option<String> {
    match (refusal, part) {
        (Refusal::NamesNothing, Part::Bank(bank)) => bank_names_nothing(job, bank),
        (Refusal::NamesNothing, Part::Register(register)) => register_names_nothing(job, register),
        (Refusal::NamesNothing, Part::Class(class)) => class_names_nothing(job, class),
        (Refusal::NamesNothing, Part::Value(value)) => {
            let value = job.function.values.get(value.index())?;
            let class = value.remat.map(|(_, class)| class);
            no_bank(job, value.bank).or_else(|| no_class(job, class?))
        }
        (Refusal::NamesNothing, part) => outside(job, part),
        (Refusal::ListedTwice, Part::Register(register)) => {
            let units = &job.target.registers.get(register.index())?.units;
            twice(units).map(|unit| format!("unit {} is listed twice", unit.0))
        }
        (Refusal::ListedTwice, Part::Class(class)) => {
            let class = job.target.classes.get(class.index())?;
            let listed = twice(&class.members).map(|member| (member, "member"));
            let listed = listed.or_else(|| Some((twice(&class.order)?, "entry of its order")));
            listed.map(|(register, what)| format!("{register} is listed twice, as {what}"))
        }
        (Refusal::ForeignBank, Part::Value(value)) => {
            let info = job.function.values.get(value.index())?;
            let (_, class) = info.remat?;
            let of_class = job.target.classes.get(class.index())?.bank?;
            let (class, bank, own) = (class.0, of_class.0, info.bank.0);
            Some(format!(
                "class {class} is of bank {bank}, and the value of bank {own}"
            ))
        }
        _ => None,
    }
}

/// A count that is too great, or 0 where there has to be one.
fn outside(job: &JobBuilder, part: Part) -> Option<String> {
    let (target, function) = (&job.target, &job.function);
    let (count, thing, least, most) = match part {
        Part::Units => (target.unit_count() as usize, "unit", 1, MOST_UNITS),
        Part::Banks => (target.banks.len(), "bank", 1, MOST_BANKS),
        Part::Registers => (target.registers.len(), "register", 1, MOST_REGISTERS),
        Part::Classes => (target.classes.len(), "class", 1, MOST_CLASSES),
        Part::Values => (function.values.len(), "value", 0, MOST_VALUES),
        Part::Slots => (function.slots as usize, "slot", 0, MOST_SLOTS),
        Part::EmergencySlots => {
            let most = function.emergency_slots as usize;
            (most, "emergency slot", 0, MOST_EMERGENCY_SLOTS)
        }
        Part::Patches => (job.patches.len(), "patch", 1, MOST_PATCHES),
        _ => return None,
    };
    let outside = count < least || count > most;
    outside.then(|| format!("{}: {least} to {most} are allowed", several(count, thing)))
}

/// So many of a thing, whose plural may be in `es`.
fn several(count: usize, thing: &str) -> String {
    match thing {
        "class" | "patch" if count != 1 => format!("{count} {thing}es"),
        _ => counted(count, thing),
    }
}

fn no_bank(job: &JobBuilder, bank: RegBank) -> Option<String> {
    let banks = job.target.banks.len();
    let there = counted(banks, "bank");
    (bank.index() >= banks).then(|| format!("bank {} is none of the target's {there}", bank.0))
}

fn no_class(job: &JobBuilder, class: RegClass) -> Option<String> {
    let classes = job.target.classes.len();
    let there = several(classes, "class");
    let none = class.index() >= classes;
    none.then(|| format!("class {} is none of the target's {there}", class.0))
}

fn no_register(job: &JobBuilder, register: PhysReg) -> Option<String> {
    let registers = job.target.registers.len();
    let there = counted(registers, "register");
    let none = register.index() >= registers;
    none.then(|| format!("{register} is none of the target's {there}"))
}

fn bank_names_nothing(job: &JobBuilder, bank: RegBank) -> Option<String> {
    let bank = job.target.banks.get(bank.index())?;
    let size = bank.size_log2;
    if size as usize > MOST_SIZE_LOG2 {
        return Some(format!(
            "slots of 2^{size} bytes: {MOST_SIZE_LOG2} is the most"
        ));
    }
    let classes = [
        (bank.top_level_class, "top-level class"),
        (bank.stack_class, "stack class"),
    ];
    let mut wrong = classes
        .into_iter()
        .filter_map(|(class, which)| match class {
            None => Some(format!("it has no {which}")),
            Some(class) => no_class(job, class),
        });
    wrong.next()
}

fn register_names_nothing(job: &JobBuilder, register: PhysReg) -> Option<String> {
    let register = job.target.registers.get(register.index())?;
    let (own, units) = (register.units.len(), job.target.unit_count());
    if let Some(bank) = no_bank(job, register.bank) {
        return Some(bank);
    }
    if !(1..=MOST_UNITS_OF_REGISTER).contains(&own) {
        let own = counted(own, "unit");
        return Some(format!("{own}: 1 to {MOST_UNITS_OF_REGISTER} are allowed"));
    }
    let unit = register.units.iter().find(|unit| unit.0 >= units)?;
    let there = counted(units as usize, "unit");
    Some(format!("unit {} is none of the target's {there}", unit.0))
}

fn class_names_nothing(job: &JobBuilder, class: RegClass) -> Option<String> {
    let before = job.target.classes.iter().take(class.index());
    let before: usize = before.map(|class| class.order.len()).sum();
    let class = job.target.classes.get(class.index())?;
    let bank = class.bank.and_then(|bank| no_bank(job, bank));
    let member = || class.members.iter().find_map(|&r| no_register(job, r));
    let in_all = before + class.order.len();
    let order = || class.order.iter().find_map(|&r| no_register(job, r));
    let too_many = || {
        let over = in_all > MOST_ORDER_ENTRIES;
        over.then(|| format!("{in_all} order entries so far: {MOST_ORDER_ENTRIES} are the most"))
    };
    bank.or_else(member).or_else(too_many).or_else(order)
}

/// The first thing of a list that stands there before.
fn twice<T: Copy + Eq + Hash>(list: &[T]) -> Option<T> {
    let mut seen = HashSet::new();
    list.iter().copied().find(|thing| !seen.insert(*thing))
}
