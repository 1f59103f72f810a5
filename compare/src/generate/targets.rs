//! Random targets, and values over them.

use super::accepted::Flavour;
use crate::draft::{
    Bank, COST_BELOW_LOAD, COST_BELOW_MOVE, COST_NONE, Class, Register, Target, Value,
};
use crate::random::Random;

/// Document 01's shipped target.
pub fn shipped() -> Target {
    let mut registers = Vec::new();
    for (bank, (count, width)) in [(32, 1), (16, 2), (8, 4)].into_iter().enumerate() {
        for index in 0..count {
            registers.push(Register {
                memory: false,
                bank,
                units: (index * width..(index + 1) * width).collect(),
            });
        }
    }
    let mut target = Target {
        units: 32,
        banks: Vec::new(),
        registers,
        classes: Vec::new(),
    };
    for bank in 0..3 {
        let members = target.registers_of(bank);
        for slots in [true, false] {
            target.classes.push(Class {
                bank,
                slots,
                members: members.clone(),
                order: members.clone(),
            });
        }
        target.banks.push(Bank {
            size_log2: bank + 2,
            top_level_class: 2 * bank,
            stack_class: 2 * bank + 1,
        });
    }
    target
}

/// How registers lie on the units.
#[derive(Clone, Copy, PartialEq, Eq)]
enum Layout {
    /// One after the other, from the start again where the units end.
    Row,
    /// The same, but each bank from the start, as in the shipped target.
    Aligned,
    /// The same, but each from the middle of the one before.
    Stepped,
    /// Anyhow.
    Loose,
}

impl Layout {
    /// A layout in which registers share units, `percent` times in a hundred.
    fn choose(random: &mut Random, percent: usize) -> Layout {
        if !random.chance(percent) {
            Layout::Row
        } else {
            *random.pick(&[
                Layout::Aligned,
                Layout::Aligned,
                Layout::Aligned,
                Layout::Stepped,
                Layout::Loose,
                Layout::Loose,
            ])
        }
    }
}

/// A random target.
pub fn random(random: &mut Random, flavour: &Flavour) -> Target {
    let bank_count = random.range(flavour.banks);
    let mut registers = Vec::new();
    // Ordinary units are numbered from 0, those of memory from `ordinary` on.
    let mut ordinary = 1;
    let mut memory_units = 0;
    for bank in 0..bank_count {
        // Where there are several banks, one often has the single units of
        // the others' registers.
        let narrow = bank == 0 && bank_count > 1 && random.chance(60);
        let width = if !narrow && random.chance(flavour.wide) {
            *random.pick(&[2, 2, 2, 2, 3, 4, 4, 8])
        } else {
            1
        };
        let mut count = random.range(flavour.registers);
        if narrow {
            count = count.max(random.within(4, 8));
        }
        // How many ordinary registers would fit beside each other.
        let fit = random.within(1.max(count / 2), count + 1);
        ordinary = ordinary.max((fit * width).min(400));
        for index in 0..count {
            // A memory register has one unit, whatever the others have.
            let memory = index > 0 && random.chance(flavour.memory);
            if memory {
                memory_units = (memory_units + 1).min(100);
            }
            registers.push(Register {
                memory,
                bank,
                units: vec![0; if memory { 1 } else { width }],
            });
        }
    }

    let layout = Layout::choose(random, flavour.wide.max(10));
    let mut next = [0, ordinary];
    let mut last_bank = 0;
    for register in &mut registers {
        if matches!(layout, Layout::Aligned | Layout::Stepped) && register.bank != last_bank {
            next = [0, ordinary];
            last_bank = register.bank;
        }
        let width = register.units.len();
        let (first, count) = if register.memory {
            (ordinary, memory_units)
        } else {
            (0, ordinary)
        };
        register.units = if layout == Layout::Loose && random.chance(25) {
            let mut all: Vec<usize> = (first..first + count).collect();
            random.shuffle(&mut all);
            all.truncate(width);
            all
        } else if layout == Layout::Loose && random.chance(60) {
            let start = first + random.below(count - width + 1);
            (start..start + width).collect()
        } else {
            let start = &mut next[usize::from(register.memory)];
            if *start + width > first + count {
                *start = first;
            }
            let from = *start;
            *start += if layout == Layout::Stepped {
                width.div_ceil(2)
            } else {
                width
            };
            (from..from + width).collect()
        };
        if random.chance(15) {
            random.shuffle(&mut register.units);
        }
    }
    if random.chance(40) {
        random.shuffle(&mut registers);
    }

    let unused = if random.chance(20) {
        random.below(8)
    } else {
        0
    };
    let mut target = Target {
        units: ordinary + memory_units + unused,
        banks: Vec::new(),
        registers,
        classes: Vec::new(),
    };
    add_classes(random, &mut target, bank_count, flavour);
    target
}

/// Adds the banks and their classes, numbered in random order.
fn add_classes(random: &mut Random, target: &mut Target, bank_count: usize, flavour: &Flavour) {
    let (more, with_slots) = if flavour.evicting { (6, 10) } else { (4, 35) };
    let mut classes = Vec::new();
    let mut tops = Vec::new();
    for bank in 0..bank_count {
        let all = target.registers_of(bank);
        tops.push(classes.len());
        classes.push(class(random, target, bank, &all, Kind::TopLevel));
        classes.push(class(random, target, bank, &all, Kind::Stack));
        for _ in 0..random.below(more) {
            let kind = if random.chance(with_slots) {
                Kind::WithSlots
            } else {
                Kind::WithoutSlots
            };
            classes.push(class(random, target, bank, &all, kind));
        }
    }

    let mut numbers: Vec<usize> = (0..classes.len()).collect();
    if random.chance(50) {
        random.shuffle(&mut numbers);
    }
    let same_size = random.chance(40);
    let size = random.below(32);
    for &top in &tops {
        target.banks.push(Bank {
            size_log2: if same_size { size } else { random.below(32) },
            top_level_class: numbers[top],
            stack_class: numbers[top + 1],
        });
    }
    let mut numbered: Vec<_> = numbers.into_iter().zip(classes).collect();
    numbered.sort_by_key(|&(number, _)| number);
    target.classes = numbered.into_iter().map(|(_, class)| class).collect();
}

#[derive(Clone, Copy, PartialEq, Eq)]
enum Kind {
    TopLevel,
    Stack,
    WithSlots,
    WithoutSlots,
}

fn class(random: &mut Random, target: &Target, bank: usize, all: &[usize], kind: Kind) -> Class {
    let slots = matches!(kind, Kind::TopLevel | Kind::WithSlots);
    let is_memory = |reg: usize| target.registers[reg].memory;

    let few = matches!(kind, Kind::WithSlots | Kind::WithoutSlots) || random.chance(20);
    let mut members = all.to_vec();
    if few {
        random.shuffle(&mut members);
        members.truncate(random.within(1, all.len()));
    }
    let mut order = members.clone();
    match random.below(5) {
        0 => random.shuffle(&mut order),
        1 => {
            random.shuffle(&mut order);
            order.truncate(random.within(0, members.len()));
        }
        2 => order.retain(|&reg| !is_memory(reg)),
        3 => order.sort_by_key(|&reg| !is_memory(reg)),
        _ => {}
    }

    match kind {
        Kind::TopLevel | Kind::WithSlots => {}
        Kind::Stack => order.retain(|&reg| !is_memory(reg)),
        Kind::WithoutSlots => {
            while order.last().is_some_and(|&reg| is_memory(reg)) {
                order.pop();
            }
        }
    }
    if !slots && order.is_empty() {
        // Each bank has a register that isn't memory.
        let usual: Vec<usize> = all.iter().copied().filter(|&r| !is_memory(r)).collect();
        let reg = *random.pick(&usual);
        if !members.contains(&reg) {
            members.push(reg);
        }
        order.push(reg);
    }
    Class {
        bank,
        slots,
        members,
        order,
    }
}

/// Random values over a target, so many, and that many in a hundred to be rebuilt.
pub fn values(
    random: &mut Random,
    target: &Target,
    count: (usize, usize),
    remat: usize,
) -> Vec<Value> {
    let count = random.range(count);
    (0..count)
        .map(|_| {
            let bank = random.below(target.banks.len());
            let cost = if random.chance(remat) {
                *random.pick(&[COST_BELOW_MOVE, COST_BELOW_LOAD])
            } else {
                COST_NONE
            };
            Value {
                bank,
                cost,
                class: *random.pick(&target.classes_of(bank)),
            }
        })
        .collect()
}
