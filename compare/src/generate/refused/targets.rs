//! Targets spoiled, for 3 to 7; for 3 free units too.

use crate::draft::{Draft, Target};
use crate::random::Random;

/// Puts a copy of one of a list somewhere after it.
fn repeat_one(random: &mut Random, list: &mut Vec<usize>) {
    if list.is_empty() {
        return;
    }
    let from = random.below(list.len());
    let to = random.within(from + 1, list.len());
    list.insert(to, list[from]);
}

/// 3.
pub(super) fn list_twice(random: &mut Random, draft: &mut Draft) {
    let target = &mut draft.target;
    match random.below(5) {
        0 => {
            let reg = random.below(target.registers.len());
            let units = &mut target.registers[reg].units;
            repeat_one(random, units);
            units.truncate(8);
        }
        1 => {
            let class = random.below(target.classes.len());
            repeat_one(random, &mut target.classes[class].members);
        }
        2 => {
            let class = random.below(target.classes.len());
            repeat_one(random, &mut target.classes[class].order);
        }
        free => {
            let units = target.units;
            let index = random.below(draft.patches.len());
            let list = &mut draft.patches[index].free;
            if list.is_empty() {
                list.push(random.below(units));
            }
            if free == 3 {
                repeat_one(random, list);
            } else {
                let first = random.below(list.len());
                list.insert(first + 1, random.below(list[first] + 1));
            }
        }
    }
}

/// 4: a memory register of several units, or a register of another width than
/// those of its bank that aren't memory.
pub(super) fn change_width(random: &mut Random, draft: &mut Draft) {
    let target = &mut draft.target;
    let memory: Vec<usize> = (0..target.registers.len())
        .filter(|&reg| target.registers[reg].memory)
        .collect();
    let reg = random.below(target.registers.len());
    let width = target.registers[reg].units.len();
    match (random.below(8), random.pick_any(&memory)) {
        // As many units as the others of its bank, which document 01 took.
        (0 | 1, Some(&word)) => {
            let others = target.width_of(target.registers[word].bank);
            set_width(target, word, others.max(2));
        }
        (2, Some(&word)) => set_width(target, word, random.within(2, 8)),
        // What was no memory register has too many units for one, and what was
        // one has too few for another.
        (3, Some(&word)) => target.registers[word].memory = false,
        (3 | 4, _) => target.registers[reg].memory = true,
        _ if width > 1 && random.chance(50) => set_width(target, reg, width - 1),
        _ => set_width(target, reg, (width + 1).min(8)),
    }
}

/// Gives a register fewer units, or more: of its own, so that no other rule is
/// broken.
fn set_width(target: &mut Target, reg: usize, width: usize) {
    let units = &mut target.registers[reg].units;
    units.truncate(width);
    while units.len() < width {
        units.push(target.units);
        target.units += 1;
    }
}

/// 5.
pub(super) fn mix_banks(random: &mut Random, draft: &mut Draft) {
    let target = &mut draft.target;
    let class_count = target.classes.len();
    let reg = random.below(target.registers.len());
    let index = random.below(class_count);
    let bank = random.below(target.banks.len());
    match random.below(5) {
        0 => {
            let class = &mut target.classes[index];
            if !class.members.contains(&reg) {
                class.members.push(reg);
            }
        }
        1 => {
            let class = &mut target.classes[index];
            if !class.members.contains(&reg) {
                let at = random.within(0, class.order.len());
                class.order.insert(at, reg);
            } else if !class.order.is_empty() {
                let gone = *random.pick(&class.order);
                class.members.retain(|&member| member != gone);
            }
        }
        2 => target.banks[bank].top_level_class = random.below(class_count),
        3 => target.banks[bank].stack_class = random.below(class_count),
        _ => target.classes[index].bank = bank,
    }
}

/// 6.
pub(super) fn mix_memory(random: &mut Random, draft: &mut Draft) {
    let target = &mut draft.target;
    let one = random.below(target.registers.len());
    let other = random.below(target.registers.len());
    if random.chance(50) {
        let bank = target.registers[one].bank;
        let memory = !target.registers[one].memory;
        let width = if memory { 1 } else { target.width_of(bank) };
        target.registers[one].memory = memory;
        set_width(target, one, width);
    }
    let unit = *random.pick(&target.registers[other].units);
    let units = &mut target.registers[one].units;
    if !units.contains(&unit) {
        let at = random.below(units.len());
        units[at] = unit;
    }
}

/// 7.
pub(super) fn unfit_class(random: &mut Random, draft: &mut Draft) {
    let target = &mut draft.target;
    let bank = random.below(target.banks.len());
    let top = target.banks[bank].top_level_class;
    let stack = target.banks[bank].stack_class;
    let index = random.below(target.classes.len());
    match random.below(6) {
        0 => target.classes[top].slots = false,
        1 => target.classes[stack].slots = true,
        2 => {
            target.classes[index].slots = false;
            target.classes[index].order.clear();
        }
        3 => target.banks[bank].top_level_class = stack,
        kind => {
            let class = if kind == 4 { stack } else { index };
            let bank = target.classes[class].bank;
            let memory: Vec<usize> = target
                .registers_of(bank)
                .into_iter()
                .filter(|&reg| target.registers[reg].memory)
                .collect();
            if let Some(&reg) = random.pick_any(&memory) {
                let class = &mut target.classes[class];
                if !class.members.contains(&reg) {
                    class.members.push(reg);
                }
                class.order.retain(|&other| other != reg);
                let at = if kind == 4 {
                    random.within(0, class.order.len())
                } else {
                    class.order.len()
                };
                class.order.insert(at, reg);
            }
        }
    }
}
