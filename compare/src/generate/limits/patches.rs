//! The limits of patches: their count, entries, free units and sources.

use super::{entry, plain};
use crate::draft::{Bank, COST_NONE, Class, Entry, Patch, Place, Register, Value};
use crate::random::Random;

pub(super) fn patches(random: &mut Random, past: usize) -> Vec<u8> {
    let mut draft = plain(3, 2, 2);
    let count = if random.chance(20) { 0 } else { 1024 + past };
    draft.patches = vec![Patch::default(); count];
    for patch in &mut draft.patches {
        if random.chance(60) {
            patch.entries = vec![
                entry(Place::Register(0), Place::Register(1), 0),
                entry(Place::Register(1), Place::Register(0), 1),
            ];
        }
        if random.chance(30) {
            patch.entries.push(entry(Place::Slot(0), Place::Slot(1), 0));
        }
    }
    draft.job()
}

pub(super) fn entries(random: &mut Random, past: usize) -> Vec<u8> {
    let mut draft = plain(random.within(3, 300), 5, random.within(150, 300));
    let mut places: Vec<Place> = (0..draft.slots).map(Place::Slot).collect();
    places.extend((0..draft.target.registers.len()).map(Place::Register));
    random.shuffle(&mut places);
    let count = 128 + past;
    for index in 0..count {
        let source = *random.pick(&places[..140]);
        if source != places[index] {
            let value = random.below(5);
            draft.patches[0]
                .entries
                .push(entry(source, places[index], value));
        }
    }
    while draft.patches[0].entries.len() < count {
        let again = draft.patches[0].entries[0];
        draft.patches[0].entries.push(again);
    }
    draft.job()
}

/// Up to 128 moves in one cycle, so that the walk is as deep as it can be.
pub(super) fn one_cycle(random: &mut Random) -> Vec<u8> {
    let length = random.within(100, 128);
    let mut draft = plain(random.within(60, 200), 3, random.within(80, 200));
    let mut places: Vec<Place> = (0..draft.target.registers.len())
        .map(Place::Register)
        .collect();
    places.extend((0..draft.slots).map(Place::Slot));
    if random.chance(60) {
        random.shuffle(&mut places);
    }
    places.truncate(length);
    let mut entries: Vec<Entry> = (0..places.len())
        .map(|index| {
            let next = (index + 1) % places.len();
            entry(places[index], places[next], random.below(3))
        })
        .collect();
    match random.below(4) {
        0 => entries.reverse(),
        1 => random.shuffle(&mut entries),
        2 => {
            entries.pop();
        }
        _ => {}
    }
    draft.patches[0].entries = entries;
    draft.job()
}

pub(super) fn free_units(random: &mut Random, past: usize) -> Vec<u8> {
    let mut draft = plain(512, 2, 3);
    draft.patches[0].free = (0..512 + past).collect();
    draft.patches[0].entries = vec![
        entry(Place::Slot(0), Place::Slot(1), 0),
        entry(Place::Slot(1), Place::Slot(random.below(2)), 0),
    ];
    draft.job()
}

/// As many moves as there may be, from single registers and from a pair. The
/// pair lies apart from the others, or on one of them; at times a single one
/// is moved to two places.
pub(super) fn sources(random: &mut Random, past: usize) -> Vec<u8> {
    let mut draft = plain(128, 5, 128);
    let units = draft.target.units;
    draft.target.units = units + 2;
    draft.target.banks.push(Bank {
        size_log2: 4,
        top_level_class: 2,
        stack_class: 3,
    });
    let pair = draft.target.registers.len();
    let under = random.below(127);
    let mut lying = vec![units, units + 1];
    if past == 1 {
        lying[random.below(2)] = under;
    }
    draft.target.registers.push(Register {
        memory: false,
        bank: 1,
        units: lying,
    });
    for slots in [true, false] {
        draft.target.classes.push(Class {
            bank: 1,
            slots,
            members: vec![pair],
            order: vec![pair],
        });
    }
    draft.values.push(Value {
        bank: 1,
        cost: COST_NONE,
        class: 0,
    });
    let entries = &mut draft.patches[0].entries;
    for reg in 0..127 {
        let source = match random.below(20) {
            0 => under,
            _ => reg,
        };
        let value = random.below(5);
        entries.push(entry(Place::Register(source), Place::Slot(reg), value));
    }
    match random.below(3) {
        0 => random.shuffle(entries),
        1 => entries.reverse(),
        _ => {}
    }
    let last = entry(Place::Register(pair), Place::Slot(127), 5);
    let at = *random.pick(&[0, 64, 127, 127]);
    entries.insert(at, last);
    draft.job()
}
