//! Entries of patches spoiled, for 9 to 15.

use super::insert;
use crate::draft::{COST_BELOW_LOAD, COST_NONE, Draft, Entry, Patch, Place, Register};
use crate::random::Random;

/// A patch and an entry of it that may be changed; one is made if need be.
/// None if there are no values.
fn some_entry<'a>(random: &mut Random, draft: &'a mut Draft) -> Option<&'a mut Entry> {
    if draft.values.is_empty() {
        return None;
    }
    let patch = random.below(draft.patches.len());
    if draft.patches[patch].entries.is_empty() {
        let value = random.below(draft.values.len());
        let registers = draft.target.registers_of(draft.values[value].bank);
        let reg = *random.pick_any(&registers)?;
        draft.patches[patch].entries.push(Entry {
            source: Some(Place::Register(*random.pick(&registers))),
            dest: Place::Register(reg),
            value,
        });
    }
    let entry = random.below(draft.patches[patch].entries.len());
    Some(&mut draft.patches[patch].entries[entry])
}

/// 9.
pub(super) fn foreign_bank(random: &mut Random, draft: &mut Draft) {
    let registers = draft.target.registers.len();
    let classes = draft.target.classes.len();
    if random.chance(30) {
        if !draft.values.is_empty() {
            let value = random.below(draft.values.len());
            draft.values[value].cost = random.within(1, 2);
            draft.values[value].class = random.below(classes);
        }
        return;
    }
    let reg = Place::Register(random.below(registers));
    let at_source = random.chance(50);
    if let Some(entry) = some_entry(random, draft) {
        if at_source && entry.source.is_some() {
            entry.source = Some(reg);
        } else {
            entry.dest = reg;
        }
    }
}

/// 10.
pub(super) fn self_move(random: &mut Random, draft: &mut Draft) {
    if let Some(entry) = some_entry(random, draft) {
        entry.source = Some(entry.dest);
    }
}

/// 11.
pub(super) fn remat_what_cannot_be(random: &mut Random, draft: &mut Draft) {
    if draft.values.is_empty() {
        return;
    }
    let value = random.below(draft.values.len());
    let bank = draft.values[value].bank;
    let plain: Vec<usize> = (0..draft.values.len())
        .filter(|&v| draft.values[v].cost == COST_NONE && draft.values[v].bank == bank)
        .collect();
    let value = random.pick_any(&plain).copied();
    if let Some(entry) = some_entry(random, draft) {
        entry.source = None;
        if let Some(value) = value {
            entry.value = value;
        }
    }
}

/// 12.
pub(super) fn write_twice(random: &mut Random, draft: &mut Draft) {
    let Some(&mut first) = some_entry(random, draft) else {
        return;
    };
    let mut second = first;
    let bank = draft.values[first.value].bank;
    let registers = draft.target.registers_of(bank);
    match random.below(5) {
        0 => {
            // Another register on the same units.
            let others: Vec<usize> = (0..draft.target.registers.len())
                .filter(|&reg| draft.target.overlap(Place::Register(reg), first.dest))
                .collect();
            if let Some(&reg) = random.pick_any(&others) {
                second.dest = Place::Register(reg);
                let bank = draft.target.registers[reg].bank;
                let values: Vec<usize> = (0..draft.values.len())
                    .filter(|&v| draft.values[v].bank == bank)
                    .collect();
                if let Some(&value) = random.pick_any(&values) {
                    second.value = value;
                }
            }
        }
        1 => second.source = None,
        2 => second.value = random.below(draft.values.len()),
        _ => {
            if let Some(&reg) = random.pick_any(&registers) {
                second.source = Some(Place::Register(reg));
            }
        }
    }
    let index = draft
        .patches
        .iter()
        .position(|patch| patch.entries.contains(&first));
    if let Some(index) = index {
        insert(random, &mut draft.patches[index].entries, second);
    }
}

/// 13.
pub(super) fn free_destination(random: &mut Random, draft: &mut Draft) {
    let index = random.below(draft.patches.len());
    let patch = &mut draft.patches[index];
    let mut units = Vec::new();
    for entry in &patch.entries {
        if let Place::Register(reg) = entry.dest {
            units.extend(&draft.target.registers[reg].units);
        }
    }
    if let Some(&unit) = random.pick_any(&units)
        && !patch.free.contains(&unit)
    {
        patch.free.push(unit);
        patch.free.sort_unstable();
    }
}

/// 14: a register on the units of a class's last one, not of that class, into
/// which a value of that class is rebuilt.
pub(super) fn evict_destination(random: &mut Random, draft: &mut Draft) {
    let target = &mut draft.target;
    let classes: Vec<usize> = (0..target.classes.len())
        .filter(|&class| !target.classes[class].slots && !target.classes[class].order.is_empty())
        .collect();
    if draft.values.is_empty() || classes.is_empty() {
        return;
    }
    let class = *random.pick(&classes);
    let bank = target.classes[class].bank;
    let Some(&last) = target.classes[class].order.last() else {
        return;
    };
    let mut units = target.registers[last].units.clone();
    random.shuffle(&mut units);
    let reg = target.registers.len();
    let memory = target.registers[last].memory;
    target.registers.push(Register {
        memory,
        bank,
        units,
    });

    let value = random.below(draft.values.len());
    if draft.values[value].bank == bank {
        draft.values[value].cost = COST_BELOW_LOAD;
        draft.values[value].class = class;
    } else {
        return;
    }
    let source = if draft.slots > 0 && random.chance(50) {
        Some(Place::Slot(random.below(draft.slots)))
    } else {
        None
    };
    let patch = Patch {
        free: Vec::new(),
        entries: vec![Entry {
            source,
            dest: Place::Register(reg),
            value,
        }],
    };
    let at = random.within(0, draft.patches.len());
    draft.patches.insert(at, patch);
}

/// 15.
pub(super) fn too_many_entries(random: &mut Random, draft: &mut Draft) {
    let index = random.below(draft.patches.len());
    let entries = draft.patches[index].entries.clone();
    let kept: Vec<Entry> = entries
        .into_iter()
        .filter(|entry| !draft.is_remat(entry))
        .collect();
    if let Some(&entry) = random.pick_any(&kept) {
        let wanted = random.within(128, 132);
        let entries = &mut draft.patches[index].entries;
        while entries.len() < wanted {
            entries.push(entry);
        }
    }
}
