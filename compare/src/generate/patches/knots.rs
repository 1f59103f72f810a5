//! Knots and braids: moves of registers that lie on each other.

use super::PatchMaker;
use crate::draft::Place;

impl PatchMaker<'_> {
    /// Moves within a few units: as many registers as fit are written, of any
    /// bank, and each is read from another of the same units. So a source has
    /// several writers, and one value is often read from several places.
    pub(super) fn add_knot(&mut self, room: usize) {
        let target = &self.draft.target;
        let mut area = vec![false; target.units];
        for _ in 0..self.random.within(2, 4) {
            let reg = self.random.below(target.registers.len());
            for &unit in &target.registers[reg].units {
                area[unit] = true;
            }
        }
        let mut inside: Vec<usize> = (0..target.registers.len())
            .filter(|&reg| {
                let register = &target.registers[reg];
                !self.values[register.bank].is_empty()
                    && register.units.iter().all(|&unit| area[unit])
            })
            .collect();
        self.random.shuffle(&mut inside);

        let joining = *self.random.pick(&[0, 30, 60, 90]);
        let mut last_values = vec![None; self.values.len()];
        let most = self.patch.entries.len() + room;
        for &dest in &inside {
            if self.patch.entries.len() == most {
                break;
            }
            let bank = target.registers[dest].bank;
            let sources: Vec<usize> = inside
                .iter()
                .copied()
                .filter(|&reg| reg != dest && target.registers[reg].bank == bank)
                .filter(|&reg| self.may_be_source(Place::Register(reg)))
                .collect();
            let value = match last_values[bank] {
                Some(value) if self.random.chance(joining) => value,
                _ => *self.random.pick(&self.values[bank]),
            };
            last_values[bank] = Some(value);
            if let Some(&source) = self.random.pick_any(&sources) {
                let source = Place::Register(source);
                self.add(Some(source), Place::Register(dest), value);
            }
        }
    }

    /// A register moved to another, and moves of smaller ones that lie on the
    /// two, such that the first has several writers that are open together, or
    /// several moves of one value are diverted together.
    pub(super) fn add_braid(&mut self) {
        for _ in 0..12 {
            let (Some(value), Some(small_value)) = (self.any_value(), self.any_value()) else {
                return;
            };
            let bank = self.draft.values[value].bank;
            let small_bank = self.draft.values[small_value].bank;
            let source = *self.random.pick(&self.registers[bank]);
            let dest = *self.random.pick(&self.registers[bank]);
            let width = self.draft.target.width_of(bank);
            if width < 2 || self.draft.target.width_of(small_bank) > width {
                continue;
            }
            let on_source = self.lying_on(small_bank, source, dest);
            let on_dest = self.lying_on(small_bank, dest, source);
            let (source, dest) = (Place::Register(source), Place::Register(dest));
            if !self.draft.target.overlap(source, dest)
                && on_source.len() > 1
                && !on_dest.is_empty()
            {
                self.braid((source, dest, value), &on_source, &on_dest, small_value);
                return;
            }
        }
    }

    fn braid(
        &mut self,
        (source, dest, value): (Place, Place, usize),
        on_source: &[Place],
        on_dest: &[Place],
        small_value: usize,
    ) {
        let small_bank = self.draft.values[small_value].bank;
        let chain = if self.random.chance(60) {
            self.chain(source, dest, on_source, small_bank)
        } else {
            None
        };
        if let Some(chain) = chain {
            for (from, to) in chain {
                let value = self.value_like(small_value);
                self.add(Some(from), to, value);
            }
            self.add(Some(source), dest, value);
        } else {
            // Those on the destination are moved to the source, most of them
            // of one value, at times by way of another place.
            for (&from, &to) in on_dest.iter().zip(on_source) {
                let value = if self.random.chance(75) {
                    small_value
                } else {
                    self.value_like(small_value)
                };
                let between = match self.random.below(3) {
                    0 => self.open_place(small_bank),
                    _ => None,
                };
                match between {
                    Some(place) if place != from && place != to => {
                        let other = self.value_like(small_value);
                        self.add(Some(from), place, other);
                        self.add(Some(place), to, value);
                    }
                    _ => {
                        self.add(Some(from), to, value);
                    }
                }
            }
            self.add(Some(source), dest, value);
        }
    }

    /// Moves onto registers that lie on `source`, each read from a register that
    /// the next one writes, the last from one that lies on `dest`. All are then
    /// open when the move from `source` to `dest` closes. Since sources don't
    /// overlap, all but the first reach beyond `source`.
    fn chain(
        &mut self,
        source: Place,
        dest: Place,
        on_source: &[Place],
        bank: usize,
    ) -> Option<Vec<(Place, Place)>> {
        let target = &self.draft.target;
        let of_source = |unit| target.any_unit(source, |other| other == unit);
        let (inside, beyond): (Vec<Place>, Vec<Place>) = on_source
            .iter()
            .partition(|&&place| !target.any_unit(place, |unit| !of_source(unit)));
        let mut written: Vec<Place> = inside.into_iter().take(1).collect();
        written.extend(beyond);
        if written.len() < 2 {
            return None;
        }
        let mut read = vec![source];
        let mut chain = Vec::new();
        for (index, &to) in written.iter().enumerate() {
            let next = written.get(index + 1).copied().unwrap_or(dest);
            let fits = |from: Place| {
                from != to
                    && target.overlap(from, next)
                    && self.may_be_source(from)
                    && read
                        .iter()
                        .all(|&other| other == from || !target.overlap(other, from))
            };
            let sources: Vec<Place> = self.registers[bank]
                .iter()
                .map(|&reg| Place::Register(reg))
                .filter(|&from| fits(from))
                .collect();
            let from = *self.random.pick_any(&sources)?;
            read.push(from);
            chain.push((from, to));
        }
        Some(chain)
    }

    /// The open registers of a bank that overlap `under` and neither `other`
    /// nor each other.
    fn lying_on(&mut self, bank: usize, under: usize, other: usize) -> Vec<Place> {
        let target = &self.draft.target;
        let (under, other) = (Place::Register(under), Place::Register(other));
        let mut all = self.registers[bank].clone();
        self.random.shuffle(&mut all);
        if self.random.chance(50) {
            // Those first that reach beyond it.
            let of_it = |unit| target.any_unit(under, |other| other == unit);
            all.sort_by_key(|&reg| !target.any_unit(Place::Register(reg), |unit| !of_it(unit)));
        }
        let mut lying: Vec<Place> = Vec::new();
        for place in all.into_iter().map(Place::Register) {
            if target.overlap(place, under)
                && !target.overlap(place, other)
                && !target.any_unit(place, |unit| self.taken[unit])
                && !lying.iter().any(|&before| target.overlap(before, place))
            {
                lying.push(place);
            }
        }
        lying
    }
}
