//! Functions and patches that are drawn, and what a patch says of a state.

use std::ops::Range;

use parallel_moves::{
    Allocation, JobBuilder, Patch, PhysReg, RegBank, RegClass, RematCost, SpillSlot, Value,
};

use crate::common::machine::{Machine, Place};
use crate::formula::lower::Frame;
use crate::subject::Subject;

/// Numbers that look drawn, the same ones for the same seed.
pub struct Drawn(u64);

impl Drawn {
    pub fn new(seed: u64) -> Self {
        // No seed gives 0, which would stay.
        Drawn(
            seed.wrapping_mul(2)
                .wrapping_add(1)
                .wrapping_mul(0x9e37_79b9_7f4a_7c15),
        )
    }

    pub fn below(&mut self, n: usize) -> usize {
        self.0 ^= self.0 << 13;
        self.0 ^= self.0 >> 7;
        self.0 ^= self.0 << 17;
        (self.0.wrapping_mul(0x2545_f491_4f6c_dd1d) >> 33) as usize % n
    }

    pub fn word(&mut self) -> u32 {
        (self.below(1 << 16) << 16 | self.below(1 << 16)) as u32
    }

    pub fn words(&mut self, count: usize) -> Vec<u32> {
        (0..count).map(|_| self.word()).collect()
    }

    fn one_of<T: Copy>(&mut self, list: &[T]) -> T {
        list[self.below(list.len())]
    }
}

/// A value: its bank, and at what cost and by which of the subject's classes it is rebuilt.
type Kind = (usize, Option<(RematCost, usize)>);

pub struct Function {
    pub job: JobBuilder,
    values: Vec<Kind>,
    /// The bank of what each ordinary slot holds.
    pub slots: Vec<usize>,
}

impl Function {
    pub fn drawn(subject: &Subject, drawn: &mut Drawn) -> Self {
        let mut job = JobBuilder::on(subject.target.clone());
        let mut values = Vec::new();
        let banks = subject.widths.len();
        for index in 0..24 {
            let bank = index % banks;
            let classes: Vec<usize> = (0..subject.classes.len())
                .filter(|&c| subject.classes[c].1.bank == bank)
                .collect();
            let cost = drawn.one_of(&[
                None,
                None,
                Some(RematCost::CheaperThanMove),
                Some(RematCost::CheaperThanLoad),
            ]);
            let remat = cost.map(|cost| (cost, drawn.one_of(&classes)));
            match remat {
                None => job.function().value(RegBank::new(bank)),
                Some((cost, class)) => {
                    let class = RegClass::new(subject.classes[class].0);
                    job.function().remat_value(RegBank::new(bank), cost, class)
                }
            };
            values.push((bank, remat));
        }
        // Of many, some lie out of the reach of a load.
        let count = drawn.one_of(&[0, 6, 24, 150]);
        let slots: Vec<usize> = (0..count).map(|_| drawn.below(banks)).collect();
        job.function().slots(count as u32);
        Function { job, values, slots }
    }

    /// The values' contents for a patch.
    pub fn contents(&self, subject: &Subject, drawn: &mut Drawn) -> Vec<Vec<u32>> {
        self.values
            .iter()
            .map(|&(bank, _)| drawn.words(subject.widths[bank]))
            .collect()
    }

    /// The words of the values that can be rebuilt, as edits are lowered with them.
    pub fn constants(&self, subject: &Subject, contents: &[Vec<u32>]) -> Vec<Vec<u32>> {
        let constant = |((_, remat), words): (&Kind, &Vec<u32>)| match remat {
            Some(_) => subject.words(words),
            None => Vec::new(),
        };
        self.values.iter().zip(contents).map(constant).collect()
    }
}

/// A move, or a rebuild, which has no source.
#[derive(Clone, Copy, Debug)]
pub struct Entry {
    source: Option<Place>,
    dest: Place,
    value: usize,
}

/// A patch: what is free, and what is asked.
#[derive(Debug)]
pub struct Asked {
    free: Vec<u32>,
    entries: Vec<Entry>,
}

/// Where a patch draws its places from: some units and some slots, so that they meet.
struct Window {
    units: Range<usize>,
    slots: Range<usize>,
}

impl Window {
    fn drawn(subject: &Subject, function: &Function, drawn: &mut Drawn) -> Self {
        let mut part = |all: usize, sizes: &[usize]| {
            let size = drawn.one_of(sizes).min(all);
            let start = drawn.below(all - size + 1) / 4 * 4;
            start..start + size
        };
        Window {
            units: part(subject.units, &[4, 8, 12, 32]),
            slots: part(function.slots.len(), &[3, 6, 150]),
        }
    }

    /// A place for a value of a bank.
    fn place(
        &self,
        subject: &Subject,
        function: &Function,
        bank: usize,
        drawn: &mut Drawn,
    ) -> Option<Place> {
        if drawn.below(3) == 0 && !self.slots.is_empty() {
            let slot = self.slots.start + drawn.below(self.slots.len());
            return (function.slots[slot] == bank).then_some(Place::Slot(slot as u16));
        }
        let number = drawn.below(subject.registers.len());
        let register = &subject.registers[number];
        let here = register.memory || register.units.iter().all(|unit| self.units.contains(unit));
        (register.bank == bank && here).then_some(Place::Register(number as u16))
    }
}

impl Asked {
    pub fn drawn(subject: &Subject, function: &Function, drawn: &mut Drawn) -> Self {
        let window = Window::drawn(subject, function, drawn);
        let mut asked = Asked {
            free: Vec::new(),
            entries: Vec::new(),
        };
        let most = drawn.one_of(&[2, 4, 8, 24]);
        for _ in 0..40 * most {
            let mut value = drawn.below(function.values.len());
            let (bank, remat) = function.values[value];
            let mut place = || window.place(subject, function, bank, drawn);
            let (Some(source), Some(dest)) = (place(), place()) else {
                continue;
            };
            let source = (remat.is_none() || drawn.below(3) > 0).then_some(source);
            if let Some(same) = asked
                .entries
                .iter()
                .find(|other| other.source.is_some() && other.source == source)
            {
                value = same.value;
            }
            let entry = Entry {
                source,
                dest,
                value,
            };
            if asked.entries.len() < most && asked.takes(subject, function, entry) {
                asked.entries.push(entry);
            }
        }
        let share = drawn.one_of(&[0, 0, 1, 4]);
        let is_dest = |unit: usize| {
            asked
                .entries
                .iter()
                .any(|entry| subject.units_of(entry.dest).contains(&unit))
        };
        let free = (0..subject.units).filter(|&unit| drawn.below(8) < share && !is_dest(unit));
        asked.free = free.map(|unit| unit as u32).collect();
        asked
    }

    /// Whether an entry goes with the others: no two destinations overlap, and sources that are read are equal
    /// or lie apart.
    fn takes(&self, subject: &Subject, function: &Function, entry: Entry) -> bool {
        let apart = |one: Place, other: Place| {
            let shared = |unit: &usize| subject.units_of(other).contains(unit);
            one != other && !subject.units_of(one).iter().any(shared)
        };
        let read = |entry: &Entry| entry.source.filter(|_| is_kept(subject, function, entry));
        let fits = |other: &Entry| match (read(&entry), read(other)) {
            (Some(one), Some(other)) => one == other || apart(one, other),
            _ => true,
        };
        entry.source != Some(entry.dest)
            && self
                .entries
                .iter()
                .all(|other| apart(entry.dest, other.dest) && fits(other))
    }

    pub fn patch(&self) -> Patch {
        let mut patch = Patch::new();
        patch.free(&self.free);
        for entry in &self.entries {
            let value = Value::new(entry.value);
            match entry.source {
                Some(source) => patch.add_move(allocation(source), allocation(entry.dest), value),
                None => patch.add_remat(allocation(entry.dest), value),
            }
        }
        patch
    }

    /// The kept sources hold their values.
    pub fn begin(
        &self,
        subject: &Subject,
        function: &Function,
        machine: &mut Machine,
        contents: &[Vec<u32>],
    ) {
        for entry in self
            .entries
            .iter()
            .filter(|entry| is_kept(subject, function, entry))
        {
            if let Some(source) = entry.source {
                machine.write(source, contents[entry.value].clone());
            }
        }
    }

    /// What is wrong in the end, if something is: each destination holds its value, and all else is as it began,
    /// but for free units and emergency slots.
    pub fn wrong(&self, subject: &Subject, end: &End<'_>) -> Option<String> {
        let mut spared = vec![false; end.end.len()];
        let mut spare = |range: Range<usize>| spared[range].fill(true);
        for &unit in &self.free {
            let bytes = subject.unit_bytes();
            spare(unit as usize * bytes..(unit as usize + 1) * bytes);
        }
        end.emergency.iter().for_each(|range| spare(range.clone()));
        for entry in &self.entries {
            let content = &end.contents[entry.value];
            let range = subject.range(end.frame, entry.dest, content.len());
            spare(range.clone());
            if end.end[range] != subject.content(content) {
                return Some(format!(
                    "{} does not hold value {}",
                    entry.dest, entry.value
                ));
            }
        }
        let changed = (0..spared.len()).find(|&at| !spared[at] && end.start[at] != end.end[at]);
        changed.map(|at| format!("byte {at} of the state is not what it was"))
    }
}

/// A state before and after some edits.
pub struct End<'a> {
    pub frame: &'a Frame,
    /// Where the emergency slots lie.
    pub emergency: &'a [Range<usize>],
    pub contents: &'a [Vec<u32>],
    pub start: &'a [u8],
    pub end: &'a [u8],
}

/// Whether an entry is a kept move, as `docs/JOB.md` says what becomes of an entry.
fn is_kept(subject: &Subject, function: &Function, entry: &Entry) -> bool {
    let Some(source) = entry.source else {
        return false;
    };
    let Some((cost, class)) = function.values[entry.value].1 else {
        return true;
    };
    let is_memory = |place: Place| match place {
        Place::Register(register) => subject.registers[usize::from(register)].memory,
        Place::Slot(_) => true,
    };
    let class = &subject.classes[class].1;
    let in_class = match entry.dest {
        Place::Register(register) => class.members.contains(&register),
        Place::Slot(_) => class.slots,
    };
    let becomes_a_rebuild = is_memory(source) || cost == RematCost::CheaperThanMove && in_class;
    !becomes_a_rebuild
}

fn allocation(place: Place) -> Allocation {
    match place {
        Place::Register(register) => PhysReg::new(register.into()).into(),
        Place::Slot(slot) => SpillSlot::new(slot.into()).into(),
    }
}
