//! Patches of several groups: cycles, chains, fans and rebuilds that share no unit.

use super::accepted::{self, Flavour};
use crate::draft::{COST_NONE, Draft, Entry, FIRST_SLOT_UNIT, Patch, Place};
use crate::random::Random;

const GROUPS: Flavour = Flavour {
    banks: (1, 3),
    registers: (4, 24),
    wide: 40,
    memory: 10,
    values: (4, 24),
    remat: 20,
    slots: (0, 12),
    slot_places: 20,
    patches: (1, 4),
    entries: (2, 30),
    shipped: 10,
    evicting: false,
};

/// A random draft.
pub fn draft(random: &mut Random) -> Draft {
    let mut draft = accepted::draft(random, &GROUPS);
    if random.chance(30) {
        draft.emergency_limit = random.below(6);
    }
    for index in 0..draft.patches.len() {
        if random.chance(85) {
            draft.patches[index] = Maker::new(random, &draft).make();
        }
    }
    draft
}

struct Maker<'a> {
    random: &'a mut Random,
    draft: &'a Draft,
    entries: Vec<Entry>,
    /// Which units some place has.
    used: Vec<bool>,
}

impl<'a> Maker<'a> {
    fn new(random: &'a mut Random, draft: &'a Draft) -> Self {
        Maker {
            random,
            draft,
            entries: Vec::new(),
            used: vec![false; FIRST_SLOT_UNIT + draft.slots],
        }
    }

    fn make(mut self) -> Patch {
        for _ in 0..self.random.within(1, 9) {
            self.add_group();
        }
        if self.random.chance(60) {
            self.random.shuffle(&mut self.entries);
        }
        Patch {
            free: self.free_units(),
            entries: self.entries,
        }
    }

    /// A place that shares no unit with those before.
    fn place(&mut self, bank: usize) -> Option<Place> {
        let registers = self.draft.target.registers_of(bank);
        for _ in 0..6 {
            let place = match self.draft.slots > 0 && self.random.chance(GROUPS.slot_places) {
                true => Place::Slot(self.random.below(self.draft.slots)),
                false => Place::Register(*self.random.pick(&registers)),
            };
            if !self.draft.target.any_unit(place, |unit| self.used[unit]) {
                let used = &mut self.used;
                self.draft.target.any_unit(place, |unit| {
                    used[unit] = true;
                    false
                });
                return Some(place);
            }
        }
        None
    }

    /// A value of a bank, one that can be rebuilt if so wanted.
    fn value(&mut self, bank: usize, remat: bool) -> Option<usize> {
        let values: Vec<usize> = (0..self.draft.values.len())
            .filter(|&value| self.draft.values[value].bank == bank)
            .filter(|&value| !remat || self.draft.values[value].cost != COST_NONE)
            .collect();
        self.random.pick_any(&values).copied()
    }

    fn add(&mut self, source: Option<Place>, dest: Place, value: Option<usize>) {
        if let Some(value) = value {
            self.entries.push(Entry {
                source,
                dest,
                value,
            });
        }
    }

    fn add_group(&mut self) {
        let bank = self.random.below(self.draft.target.banks.len());
        let wanted = self.random.within(2, 5);
        let places: Vec<Place> = (0..wanted).filter_map(|_| self.place(bank)).collect();
        let [first, rest @ ..] = &places[..] else {
            return;
        };
        let shape = self.random.below(10);
        if shape == 9 || rest.is_empty() {
            let value = self.value(bank, true);
            return self.add(None, *first, value);
        }
        if shape == 8 {
            let value = self.value(bank, false);
            return rest
                .iter()
                .for_each(|&to| self.add(Some(*first), to, value));
        }
        for pair in places.windows(2) {
            let value = self.value(bank, false);
            self.add(Some(pair[0]), pair[1], value);
        }
        if let (0..=5, Some(&last)) = (shape, places.last()) {
            let value = self.value(bank, false);
            self.add(Some(last), *first, value);
        }
    }

    /// Any units but those of destinations: sources are among them.
    fn free_units(&mut self) -> Vec<usize> {
        let percent = *self.random.pick(&[0, 0, 5, 15, 40, 80]);
        let target = &self.draft.target;
        let written = |unit: usize| {
            let mut dests = self.entries.iter().map(|entry| entry.dest);
            dests.any(|dest| target.any_unit(dest, |its| its == unit))
        };
        let open: Vec<usize> = (0..target.units).filter(|&unit| !written(unit)).collect();
        open.into_iter()
            .filter(|_| self.random.chance(percent))
            .collect()
    }
}
