//! The limits of a target: units, banks, registers and classes.

use super::{entry, plain, small};
use crate::draft::{Bank, COST_BELOW_LOAD, COST_NONE, Class, Place, Register, Value};
use crate::random::Random;

pub(super) fn units(random: &mut Random, past: usize) -> Vec<u8> {
    let mut draft = small(random);
    draft.target.units = 512 + past;
    draft.job()
}

pub(super) fn banks(random: &mut Random, past: usize) -> Vec<u8> {
    let mut draft = plain(1, 0, 2);
    draft.target.banks.clear();
    draft.target.registers.clear();
    draft.target.classes.clear();
    for bank in 0..8 + past {
        draft.target.banks.push(Bank {
            size_log2: random.below(32),
            top_level_class: 2 * bank,
            stack_class: 2 * bank + 1,
        });
        draft.target.registers.push(Register {
            memory: false,
            bank,
            units: (0..=bank.min(7)).collect(),
        });
        for slots in [true, false] {
            draft.target.classes.push(Class {
                bank,
                slots,
                members: vec![bank],
                order: vec![bank],
            });
        }
        draft.values.push(Value {
            bank,
            cost: COST_NONE,
            class: 0,
        });
    }
    draft.target.units = 8;
    let value = random.below(8);
    draft.patches[0].entries = vec![
        entry(Place::Slot(0), Place::Slot(1), value),
        entry(Place::Slot(1), Place::Slot(0), random.below(8)),
    ];
    draft.job()
}

pub(super) fn registers(past: usize) -> Vec<u8> {
    let mut draft = plain(512, 2, 0);
    if past == 1 {
        let another = draft.target.registers[511].clone();
        draft.target.registers.push(another);
    }
    draft.patches[0].entries = vec![
        entry(Place::Register(511), Place::Register(0), 0),
        entry(Place::Register(0), Place::Register(511), 1),
    ];
    draft.job()
}

pub(super) fn units_of_register(random: &mut Random, past: usize) -> Vec<u8> {
    let mut draft = plain(3, 2, 0);
    let width = if random.chance(20) { 0 } else { 8 + past };
    draft.target.units = 20;
    for (index, register) in draft.target.registers.iter_mut().enumerate() {
        register.units = (index..index + width).collect();
    }
    draft.patches[0].entries = vec![entry(Place::Register(0), Place::Register(1), 0)];
    draft.job()
}

pub(super) fn classes(random: &mut Random, past: usize) -> Vec<u8> {
    let mut draft = plain(3, 2, 1);
    while draft.target.classes.len() < 64 + past {
        let again = draft.target.classes[random.below(2)].clone();
        draft.target.classes.push(again);
    }
    if random.chance(50) {
        // The last class, or the one past it, is named by a bank.
        draft.target.classes[63].slots = true;
        draft.target.banks[0].top_level_class = 63 + past;
        draft.target.classes.truncate(64);
    } else {
        draft.values[0].cost = COST_BELOW_LOAD;
        draft.values[0].class = 63 + past;
        draft.target.classes.truncate(64 + random.below(2) * past);
    }
    draft.patches[0].entries = vec![entry(Place::Slot(0), Place::Register(0), 0)];
    draft.job()
}

pub(super) fn order_entries(random: &mut Random, past: usize) -> Vec<u8> {
    let mut draft = plain(512, 2, 0);
    while draft.target.classes.len() < 8 {
        let again = draft.target.classes[1].clone();
        draft.target.classes.push(again);
    }
    if past == 1 {
        let order = vec![random.below(512)];
        draft.target.classes.push(Class {
            bank: 0,
            slots: false,
            members: order.clone(),
            order,
        });
    } else if random.chance(50) {
        draft.target.classes.push(Class {
            bank: 0,
            slots: true,
            members: vec![0],
            order: Vec::new(),
        });
    }
    draft.patches[0].entries = vec![entry(Place::Register(0), Place::Register(1), 0)];
    draft.job()
}

/// The same limit in few bytes: 64 classes, each with 64 of 65 registers in
/// its order.
pub fn order_entries_in_few_bytes(past: usize) -> Vec<u8> {
    let mut draft = plain(65, 2, 0);
    for class in &mut draft.target.classes {
        class.order.truncate(64);
    }
    while draft.target.classes.len() < 64 {
        let again = draft.target.classes[1].clone();
        draft.target.classes.push(again);
    }
    if past == 1 {
        draft.target.classes[63].order.push(64);
    }
    draft.patches[0].entries = vec![entry(Place::Register(0), Place::Register(1), 0)];
    draft.job()
}

pub(super) fn size(random: &mut Random, past: usize) -> Vec<u8> {
    let mut draft = small(random);
    let bank = random.below(draft.target.banks.len());
    draft.target.banks[bank].size_log2 = 31 + past;
    draft.job()
}

/// Registers of eight units, and beside them in the same bank as many memory
/// registers of one as there are moves; past it some one of these has two, or one
/// of those seven. The words are turned round, and at times the first of them is
/// taken for scratch.
pub(super) fn argument_words(random: &mut Random, past: usize) -> Vec<u8> {
    let (wide, words) = (random.within(2, 16), 128);
    let mut draft = plain(wide + words, 5, 1);
    let target = &mut draft.target;
    target.units = 8 * wide + words;
    for (reg, register) in target.registers.iter_mut().enumerate() {
        register.memory = reg >= wide;
        register.units = match reg.checked_sub(wide) {
            Some(word) => vec![8 * wide + word],
            None => (8 * reg..8 * reg + 8).collect(),
        };
    }
    // The stack class has none of the words; in the other they come first.
    target.classes[0].order.rotate_left(wide);
    target.classes[1].order.truncate(wide);
    if past == 1 {
        let any = wide + random.below(words);
        let reg = *random.pick(&[0, wide, any, wide + words - 1]);
        let units = &mut target.registers[reg].units;
        match units.len() {
            1 => units.push(target.units),
            _ => {
                units.pop();
            }
        }
        target.units += 1;
    }
    let first = random.below(2);
    let turned: Vec<usize> = (wide + first..wide + words).collect();
    let patch = &mut draft.patches[0];
    patch.free.extend((first == 1).then_some(8 * wide));
    for (at, &reg) in turned.iter().enumerate() {
        let next = turned[(at + 1) % turned.len()];
        let value = random.below(5);
        patch
            .entries
            .push(entry(Place::Register(reg), Place::Register(next), value));
    }
    if random.chance(50) {
        random.shuffle(&mut patch.entries);
    }
    draft.job()
}
