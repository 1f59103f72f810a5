//! Sources that overlap, for 21.

use super::insert;
use crate::draft::{Draft, Entry, Patch, Place};
use crate::random::Random;

/// Adds a register of no class, on the units of another.
pub(super) fn add_twin(random: &mut Random, draft: &mut Draft) {
    let mut twin = random.pick(&draft.target.registers).clone();
    random.shuffle(&mut twin.units);
    draft.target.registers.push(twin);
}

/// 21: a move from a register that overlaps the source of another move, before
/// it or behind it. At times something else is done to them, for which another
/// number comes or none. False if no two registers could be sources.
pub(super) fn overlap_sources(random: &mut Random, draft: &mut Draft) -> bool {
    let index = random.below(draft.patches.len());
    let kept: Vec<usize> = draft.patches[index]
        .entries
        .iter()
        .filter(|entry| !draft.is_remat(entry))
        .filter_map(|entry| match entry.source {
            Some(Place::Register(reg)) => Some(reg),
            _ => None,
        })
        .collect();
    let pairs = overlapping_registers(draft);
    let there: Vec<_> = pairs.iter().filter(|(reg, _)| kept.contains(reg)).collect();
    let (one, other) = match random.pick_any(&there) {
        Some(&&pair) => pair,
        None => match random.pick_any(&pairs) {
            Some(&pair) => pair,
            None => return false,
        },
    };
    if !kept.contains(&one) {
        let first = move_from(random, draft, index, one);
        insert(random, &mut draft.patches[index].entries, first);
    }
    // An equal source passes.
    let equal = random.chance(8);
    let mut second = move_from(random, draft, index, if equal { one } else { other });
    let entries = &mut draft.patches[index].entries;
    match random.below(16) {
        // 12 comes before 21 of the same entry.
        0 => second.dest = random.pick(entries).dest,
        // 10 too; and of an entry behind it 9, 10 or 12 come no more.
        1 => second.dest = Place::Register(other),
        2 | 3 => {
            let again = Entry {
                value: random.below(draft.values.len()),
                ..*random.pick(entries)
            };
            entries.push(again);
        }
        // Nor does 13.
        4 | 5 => {
            if let Place::Register(reg) = second.dest {
                let units = &draft.target.registers[reg].units;
                let free = &mut draft.patches[index].free;
                free.push(*random.pick(units));
                free.sort_unstable();
                free.dedup();
            }
        }
        _ => {}
    }
    insert(random, &mut draft.patches[index].entries, second);
    true
}

/// Two registers that overlap, each of a bank that has values.
fn overlapping_registers(draft: &Draft) -> Vec<(usize, usize)> {
    let usable: Vec<usize> = (0..draft.target.registers.len())
        .filter(|&reg| {
            let bank = draft.target.registers[reg].bank;
            draft.values.iter().any(|value| value.bank == bank)
        })
        .collect();
    let mut pairs = Vec::new();
    for &one in &usable {
        for &other in &usable {
            let (a, b) = (Place::Register(one), Place::Register(other));
            if one != other && draft.target.overlap(a, b) {
                pairs.push((one, other));
            }
        }
    }
    pairs
}

/// A move from a register to a place that no entry writes, if there is one;
/// mostly one that is kept.
fn move_from(random: &mut Random, draft: &Draft, patch: usize, source: usize) -> Entry {
    let target = &draft.target;
    let Patch { free, entries } = &draft.patches[patch];
    let bank = target.registers[source].bank;
    let source = Place::Register(source);
    let mut dests: Vec<Place> = target
        .registers_of(bank)
        .into_iter()
        .map(Place::Register)
        .chain((0..draft.slots).map(Place::Slot))
        .filter(|&place| place != source)
        .collect();
    let all = dests.clone();
    dests.retain(|&place| {
        !target.any_unit(place, |unit| free.contains(&unit))
            && !entries
                .iter()
                .any(|entry| target.overlap(entry.dest, place))
    });
    if dests.is_empty() {
        dests = all;
    }
    let dest = random.pick_any(&dests);
    let mut values: Vec<usize> = (0..draft.values.len())
        .filter(|&value| draft.values[value].bank == bank)
        .collect();
    let entry = |value| Entry {
        source: Some(source),
        dest: dest.copied().unwrap_or(source),
        value,
    };
    let any = *random.pick(&values);
    values.retain(|&value| !draft.is_remat(&entry(value)));
    match random.pick_any(&values) {
        Some(&kept) if random.chance(90) => entry(kept),
        _ => entry(any),
    }
}
