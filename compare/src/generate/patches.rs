//! Random patches: cycles, several writers, repeated values, rebuilds.

// By path, since bench takes this file by path too.
#[path = "patches/knots.rs"]
mod knots;

use super::accepted::Flavour;
use crate::draft::{COST_NONE, Draft, Entry, FIRST_SLOT_UNIT, Patch, Place};
use crate::patch::MOST_ENTRIES;
use crate::random::Random;

/// Makes a patch entry by entry.
pub struct PatchMaker<'a> {
    random: &'a mut Random,
    draft: &'a Draft,
    flavour: &'a Flavour,
    patch: Patch,
    /// Which units are some destination's, or free.
    taken: Vec<bool>,
    /// Which units are some destination's.
    written: Vec<bool>,
    /// The source, of those of kept moves, that each unit is of.
    read: Vec<Option<Place>>,
    /// Whether sources may overlap, for which 21 comes.
    overlapping: bool,
    /// The values and the registers of each bank.
    values: Vec<Vec<usize>>,
    registers: Vec<Vec<usize>>,
    /// The place that a value is usually read from.
    homes: Vec<Option<Place>>,
    /// Chance that a move takes its value from another place than its home.
    stray: usize,
}

impl<'a> PatchMaker<'a> {
    pub fn new(random: &'a mut Random, draft: &'a Draft, flavour: &'a Flavour) -> Self {
        let banks = draft.target.banks.len();
        let mut values = vec![Vec::new(); banks];
        for (index, value) in draft.values.iter().enumerate() {
            values[value.bank].push(index);
        }
        let units = FIRST_SLOT_UNIT + draft.slots;
        let stray = *random.pick(&[0, 10, 40, 100]);
        let overlapping = random.below(1000) < 2;
        PatchMaker {
            random,
            draft,
            flavour,
            patch: Patch::default(),
            taken: vec![false; units],
            written: vec![false; units],
            read: vec![None; units],
            overlapping,
            values,
            registers: (0..banks).map(|b| draft.target.registers_of(b)).collect(),
            homes: vec![None; draft.values.len()],
            stray,
        }
    }

    /// Makes it.
    pub fn make(mut self) -> Patch {
        self.choose_free_units();
        let wanted = self.random.range(self.flavour.entries);
        if wanted > 2 && self.random.chance(35) {
            self.add_braid();
        }
        for _ in 0..2 * wanted + 4 {
            if self.patch.entries.len() >= wanted {
                break;
            }
            let room = wanted - self.patch.entries.len();
            match self.random.below(24) {
                _ if self.flavour.evicting && self.random.chance(65) => self.add_evicting(room),
                0..=4 => self.add_cycle(room),
                5 => self.add_joined_cycle(room),
                6..=8 => self.add_knot(room),
                9..=12 if room > 2 => self.add_braid(),
                13 | 14 => self.add_fan(room),
                15 | 16 => self.add_remat(),
                17 => self.repeat_entry(),
                18 => self.add_words(room),
                _ => self.add_single_move(),
            }
        }
        if self.random.chance(50) {
            self.random.shuffle(&mut self.patch.entries);
        }
        self.patch.entries.truncate(MOST_ENTRIES);
        self.patch
    }

    fn choose_free_units(&mut self) {
        let percents = match self.flavour.evicting {
            true => [0, 0, 0, 0, 5],
            false => [0, 0, 5, 15, 40],
        };
        let percent = *self.random.pick(&percents);
        // At times memory registers are free where others are not.
        let mut words = vec![false; self.draft.target.units];
        if self.random.chance(15) {
            let memory = self.draft.target.registers.iter().filter(|r| r.memory);
            memory.for_each(|r| r.units.iter().for_each(|&unit| words[unit] = true));
        }
        for (unit, word) in words.into_iter().enumerate() {
            if self.random.chance(if word { 60 } else { percent }) {
                self.patch.free.push(unit);
                self.taken[unit] = true;
            }
        }
    }

    fn any_value(&mut self) -> Option<usize> {
        if self.draft.values.is_empty() {
            None
        } else {
            Some(self.random.below(self.draft.values.len()))
        }
    }

    /// A value of the bank of another one.
    fn value_like(&mut self, value: usize) -> usize {
        let bank = self.draft.values[value].bank;
        *self.random.pick(&self.values[bank])
    }

    /// A place where a value of the bank may lie.
    fn any_place(&mut self, bank: usize) -> Place {
        if self.draft.slots > 0 && self.random.chance(self.flavour.slot_places) {
            Place::Slot(self.random.below(self.draft.slots))
        } else {
            Place::Register(*self.random.pick(&self.registers[bank]))
        }
    }

    /// A place for a destination.
    fn open_place(&mut self, bank: usize) -> Option<Place> {
        for _ in 0..6 {
            let place = self.any_place(bank);
            if !self.draft.target.any_unit(place, |unit| self.taken[unit]) {
                return Some(place);
            }
        }
        None
    }

    /// Whether a place is a source already, or overlaps none.
    fn may_be_source(&self, place: Place) -> bool {
        let other = |unit: usize| self.read[unit].is_some_and(|source| source != place);
        self.overlapping || !self.draft.target.any_unit(place, other)
    }

    /// A place for a source, if chance gives one.
    fn source_place(&mut self, bank: usize) -> Place {
        for _ in 0..6 {
            let place = self.any_place(bank);
            if self.may_be_source(place) {
                return place;
            }
        }
        self.any_place(bank)
    }

    /// A place for a source that some destination overlaps, if there is one.
    fn written_place(&mut self, bank: usize) -> Place {
        for _ in 0..12 {
            let place = self.any_place(bank);
            let written = self.draft.target.any_unit(place, |unit| self.written[unit]);
            if written && self.may_be_source(place) {
                return place;
            }
        }
        self.source_place(bank)
    }

    /// Adds an entry if it would be accepted.
    fn add(&mut self, source: Option<Place>, dest: Place, value: usize) -> bool {
        let entry = Entry {
            source,
            dest,
            value,
        };
        let target = &self.draft.target;
        if source == Some(dest)
            || target.any_unit(dest, |unit| self.taken[unit])
            || self.draft.evicts_destination(&entry)
        {
            return false;
        }
        if let Some(place) = source {
            if !self.draft.is_remat(&entry) {
                if !self.may_be_source(place) {
                    return false;
                }
                target.any_unit(place, |unit| {
                    self.read[unit] = source;
                    false
                });
            }
            self.homes[value] = source;
        }
        target.any_unit(dest, |unit| {
            self.taken[unit] = true;
            self.written[unit] = true;
            false
        });
        self.patch.entries.push(entry);
        true
    }

    /// Some places, none of which overlap, each moved to the next.
    fn add_cycle(&mut self, room: usize) {
        let Some(value) = self.any_value() else {
            return;
        };
        let places = self.apart(value, room);
        let open = self.random.chance(10);
        for index in 0..places.len() {
            let source = places[index];
            let next = (index + 1) % places.len();
            if open && next == 0 {
                break;
            }
            let value = self.value_like(value);
            self.add(Some(source), places[next], value);
        }
    }

    /// Some memory registers, none of which overlap, each moved to the next.
    fn add_words(&mut self, room: usize) {
        let Some(value) = self.any_value() else {
            return;
        };
        let target = &self.draft.target;
        let mut all = self.registers[self.draft.values[value].bank].clone();
        all.retain(|&reg| target.registers[reg].memory);
        self.random.shuffle(&mut all);
        let mut words: Vec<Place> = Vec::new();
        for place in all.into_iter().map(Place::Register) {
            if !target.any_unit(place, |unit| self.taken[unit])
                && self.may_be_source(place)
                && !words.iter().any(|&other| target.overlap(other, place))
            {
                words.push(place);
            }
        }
        words.truncate(self.random.within(2, 4).min(room));
        for (index, &source) in words.iter().enumerate() {
            let value = self.value_like(value);
            self.add(Some(source), words[(index + 1) % words.len()], value);
        }
    }

    /// What needs scratch registers that are not there.
    fn add_evicting(&mut self, room: usize) {
        if self.random.chance(70) {
            self.add_alternating(room);
        } else {
            for _ in 0..self.random.within(2, 6).min(room) {
                self.add_remat();
            }
        }
    }

    /// Moves from slot to slot, each of another bank than the one before if chance
    /// gives one; some have a register at one end.
    fn add_alternating(&mut self, room: usize) {
        let mut last_bank = None;
        for _ in 0..self.random.within(2, 6).min(room) {
            let mut value = None;
            for _ in 0..4 {
                value = self.any_value();
                if value.map(|value| self.draft.values[value].bank) != last_bank {
                    break;
                }
            }
            let Some(value) = value else {
                return;
            };
            let bank = self.draft.values[value].bank;
            last_bank = Some(bank);
            if self.draft.slots == 0 {
                return;
            }
            let register = Place::Register(*self.random.pick(&self.registers[bank]));
            let mut ends = [(); 2].map(|()| Place::Slot(self.random.below(self.draft.slots)));
            if self.random.chance(25) {
                ends[self.random.below(2)] = register;
            }
            self.add(Some(ends[0]), ends[1], value);
        }
    }

    /// A cycle in which one value lies in several places.
    fn add_joined_cycle(&mut self, room: usize) {
        let Some(value) = self.any_value() else {
            return;
        };
        let mut places = self.apart(value, room);
        let mut sources = places.clone();
        self.random.shuffle(&mut sources);
        self.random.shuffle(&mut places);
        for (source, dest) in sources.into_iter().zip(places) {
            let value = if self.random.chance(60) {
                value
            } else {
                self.value_like(value)
            };
            self.add(Some(source), dest, value);
        }
    }

    /// Up to `room` open places of the value's bank, also for sources, that don't
    /// overlap.
    fn apart(&mut self, value: usize, room: usize) -> Vec<Place> {
        let bank = self.draft.values[value].bank;
        let most = if self.random.chance(10) { room } else { 6 };
        let wanted = self.random.within(2, most.max(2)).min(room);
        let mut places: Vec<Place> = Vec::new();
        for _ in 0..wanted {
            if let Some(place) = self.open_place(bank)
                && self.may_be_source(place)
                && !places
                    .iter()
                    .any(|&other| self.draft.target.overlap(other, place))
            {
                places.push(place);
            }
        }
        places
    }

    /// One place moved to several.
    fn add_fan(&mut self, room: usize) {
        let Some(value) = self.any_value() else {
            return;
        };
        let bank = self.draft.values[value].bank;
        let source = self.written_place(bank);
        for _ in 0..self.random.within(1, 4).min(room) {
            if let Some(dest) = self.open_place(bank) {
                self.add(Some(source), dest, value);
            }
        }
    }

    fn add_single_move(&mut self) {
        let Some(value) = self.any_value() else {
            return;
        };
        let bank = self.draft.values[value].bank;
        let source = match self.homes[value] {
            Some(home) if !self.random.chance(self.stray) => home,
            _ if self.random.chance(70) => self.written_place(bank),
            _ => self.source_place(bank),
        };
        if let Some(dest) = self.open_place(bank) {
            self.add(Some(source), dest, value);
        }
    }

    fn add_remat(&mut self) {
        let Some(value) = self.any_value() else {
            return;
        };
        if self.draft.values[value].cost == COST_NONE {
            return;
        }
        if let Some(dest) = self.open_place(self.draft.values[value].bank) {
            self.add(None, dest, value);
        }
    }

    fn repeat_entry(&mut self) {
        if let Some(&entry) = self.random.pick_any(&self.patch.entries)
            && !self.draft.is_remat(&entry)
        {
            self.patch.entries.push(entry);
        }
    }
}
