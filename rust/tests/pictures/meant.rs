//! What a patch means: what its values are, and what is held at the start.

use std::collections::BTreeMap;

use crate::common::machine::{Machine, Place};
use crate::job::{Job, Patch};

/// From here on words are those of units, slots and values, and those that nobody needs.
const OF_UNIT: u32 = 1 << 10;
const OF_SLOT: u32 = 1 << 13;
const OF_VALUE: u32 = 1 << 20;
pub const OF_NONE: u32 = 1 << 24;

/// A patch of a job with what its values are.
pub struct Meant<'a> {
    job: &'a Job,
    patch: &'a Patch,
    /// The first of the values that have a source in common with a value.
    first: BTreeMap<u32, u32>,
}

impl<'a> Meant<'a> {
    pub fn of(job: &'a Job, patch: &'a Patch) -> Self {
        let mut first: BTreeMap<u32, u32> = (0..job.values.len() as u32).map(|v| (v, v)).collect();
        // As often as there are entries: a chain of sources is no longer.
        for _ in &patch.entries {
            for &(source, dest, value) in &patch.entries {
                let Some(source) = source.filter(|&from| job.is_kept(from, dest, value)) else {
                    continue;
                };
                for &(other, to, also) in &patch.entries {
                    if other == Some(source) && job.is_kept(source, to, also) {
                        let least = first[&value].min(first[&also]);
                        first.insert(value, least);
                        first.insert(also, least);
                    }
                }
            }
        }
        Meant { job, patch, first }
    }

    pub fn content(&self, value: u32) -> Vec<u32> {
        let bank = self.job.values[value as usize].0;
        let mut registers = self.job.registers.iter();
        let width = registers.find(|register| register.bank == bank && !register.memory);
        let width = width.unwrap().units.len() as u32;
        let first = OF_VALUE + 8 * self.first[&value];
        (first..first + width).collect()
    }

    pub fn dests(&self) -> impl Iterator<Item = (Place, u32)> {
        self.patch.entries.iter().map(|&(_, to, value)| (to, value))
    }

    fn is_needed(&self, unit: usize) -> bool {
        let is_free = self.patch.free.contains(&(unit as u32));
        !is_free
            && self
                .dests()
                .all(|(to, _)| !self.job.units(to).contains(&unit))
    }

    /// What is held before the first edit.
    pub fn start(&self) -> Machine {
        let word_of = |unit: usize| match self.is_needed(unit) {
            true => OF_UNIT + unit as u32,
            false => OF_NONE + unit as u32,
        };
        let mut machine = Machine {
            registers: self.job.registers.clone(),
            units: (0..512).map(word_of).collect(),
            words: (0..512).map(|unit| (unit, vec![word_of(unit)])).collect(),
            slots: (0..self.job.slots as u16 + 300)
                .map(|slot| (slot, vec![OF_NONE]))
                .collect(),
        };
        for slot in 0..self.job.slots as u16 {
            if self.dests().all(|(to, _)| to != Place::Slot(slot)) {
                machine.slots.insert(slot, vec![OF_SLOT + u32::from(slot)]);
            }
        }
        for &(source, dest, value) in &self.patch.entries {
            if let Some(source) = source.filter(|&from| self.job.is_kept(from, dest, value)) {
                machine.write(source, self.content(value));
            }
        }
        machine
    }

    /// The words that a cell says a place holds: none for one that nobody needs.
    pub fn said(&self, label: &str) -> Vec<Option<u32>> {
        let words = label.split(' ').flat_map(|name| {
            let number = |name: &str| name[1..].parse::<u32>().unwrap();
            let words = if name == "-" {
                return vec![None];
            } else if let Some(inner) = name.strip_prefix('(') {
                let inner = inner.strip_suffix(')').unwrap();
                match &inner[..1] {
                    "r" => {
                        let units = &self.job.registers[number(inner) as usize].units;
                        units.iter().map(|&unit| OF_UNIT + unit as u32).collect()
                    }
                    "u" => vec![OF_UNIT + number(inner)],
                    _ => vec![OF_SLOT + number(inner)],
                }
            } else {
                let (values, index) = match name.split_once('.') {
                    Some((values, index)) => (values, Some(index.parse::<usize>().unwrap())),
                    None => (name, None),
                };
                let mut contents = values.split('=').map(|value| self.content(number(value)));
                let content = contents.next().unwrap();
                assert!(contents.all(|other| other == content), "{label}");
                match index {
                    Some(index) => vec![content[index]],
                    None => content,
                }
            };
            words.into_iter().map(Some).collect()
        });
        words.collect()
    }
}
