//! The text of a job.

use std::fmt;

use super::COSTS;
use crate::builder::{JobBuilder, RematCost, TargetBuilder};
use crate::entity::{RegBank, RegClass};
use crate::patch::{Entry, Patch};

/// Prints the text of the job.
impl fmt::Display for JobBuilder {
    fn fmt(&self, f: &mut fmt::Formatter<'_>) -> fmt::Result {
        match self.target.name() {
            Some(name) => writeln!(f, "target {name}")?,
            None => put_target(f, &self.target)?,
        }
        writeln!(f, "slots {}", self.function.slots)?;
        writeln!(f, "emergency-slots {}", self.function.emergency_slots)?;
        for (value, index) in self.function.values.iter().zip(0..) {
            write!(f, "value v{index} bank b{}", value.bank.0)?;
            if let Some((cost, class)) = value.remat {
                write!(f, " rebuilt {} by c{}", cost_word(cost), class.0)?;
            }
            writeln!(f)?;
        }
        for (patch, number) in self.patches.iter().zip(1..) {
            put_patch(f, patch, number)?;
        }
        Ok(())
    }
}

fn put_target(f: &mut fmt::Formatter<'_>, target: &TargetBuilder) -> fmt::Result {
    writeln!(f, "units {}", target.unit_count())?;
    for (bank, index) in target.banks.iter().zip(0..) {
        let class = |class: Option<RegClass>| class.map_or(u32::MAX, |class| class.0);
        let (top, stack) = (class(bank.top_level_class), class(bank.stack_class));
        let size = bank.size_log2;
        writeln!(
            f,
            "bank b{index} slots 2^{size} top-level c{top} stack c{stack}"
        )?;
    }
    for (register, index) in target.registers.iter().zip(0..) {
        let memory = if register.memory { " memory" } else { "" };
        write!(
            f,
            "register r{index} bank b{}{memory} units",
            register.bank.0
        )?;
        put_list(f, "", register.units.iter().map(|unit| unit.0))?;
        writeln!(f)?;
    }
    for (class, index) in target.classes.iter().zip(0..) {
        let bank = class.bank.unwrap_or(RegBank(0)).0;
        let slots = if class.slots { " with-slots" } else { "" };
        write!(f, "class c{index} bank b{bank}{slots} members")?;
        put_list(f, "r", class.members.iter().map(|register| register.0))?;
        write!(f, " order")?;
        put_list(f, "r", class.order.iter().map(|register| register.0))?;
        writeln!(f)?;
    }
    Ok(())
}

fn put_list(
    f: &mut fmt::Formatter<'_>,
    letter: &str,
    list: impl Iterator<Item = u32>,
) -> fmt::Result {
    for number in list {
        write!(f, " {letter}{number}")?;
    }
    Ok(())
}

fn put_patch(f: &mut fmt::Formatter<'_>, patch: &Patch, number: usize) -> fmt::Result {
    write!(f, "patch {number}")?;
    if !patch.free.is_empty() {
        write!(f, " free")?;
        put_list(f, "", patch.free.iter().map(|unit| unit.0))?;
    }
    writeln!(f)?;
    for &entry in &patch.entries {
        writeln!(f, "  {}", entry_text(entry))?;
    }
    Ok(())
}

/// The text of an entry.
pub(crate) fn entry_text(numbers: [u32; 4]) -> String {
    Entry::of_numbers(numbers).to_string()
}

fn cost_word(cost: RematCost) -> &'static str {
    let [(first, word), (_, other)] = COSTS;
    if cost == first { word } else { other }
}
