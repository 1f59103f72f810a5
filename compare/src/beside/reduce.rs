//! A job made small, while the two answers to it still differ.

use std::ops::Range;
use std::time::{Duration, Instant};

use judge::draft::{COST_NONE, Draft, Place};

use crate::parse;

/// When to be content with what there is.
const MOST_TIME: Duration = Duration::from_secs(60);

/// The smallest job found that differs, from one that does.
pub fn reduce(job: Vec<u8>, differs: impl FnMut(&[u8]) -> bool) -> Vec<u8> {
    let mut reducer = Reducer {
        differs,
        left_over: Vec::new(),
        until: Instant::now() + MOST_TIME,
    };
    let mut job = job;
    loop {
        let before = job.clone();
        if let Some((draft, left_over)) = parse::draft(&job) {
            reducer.left_over = left_over.to_vec();
            let draft = reducer.smaller_draft(draft);
            job = reducer.write(&draft);
        }
        job = reducer.smaller_bytes(job);
        if job == before || reducer.late() {
            return job;
        }
    }
}

struct Reducer<F> {
    differs: F,
    /// What follows a draft.
    left_over: Vec<u8>,
    until: Instant,
}

impl<F: FnMut(&[u8]) -> bool> Reducer<F> {
    fn late(&self) -> bool {
        Instant::now() >= self.until
    }

    fn write(&self, draft: &Draft) -> Vec<u8> {
        let mut job = draft.job();
        job.extend(&self.left_over);
        job
    }

    /// Takes a change if the answers still differ after it.
    fn try_draft(&mut self, draft: &mut Draft, change: impl FnOnce(&mut Draft)) {
        if self.late() {
            return;
        }
        let mut changed = draft.clone();
        change(&mut changed);
        let job = self.write(&changed);
        if job != self.write(draft) && (self.differs)(&job) {
            *draft = changed;
        }
    }

    /// Drops what it can of a list: the whole of it, halves, and so on to
    /// single ones, from the end.
    fn shorten(
        &mut self,
        draft: &mut Draft,
        length: impl Fn(&Draft) -> usize,
        drop: impl Fn(&mut Draft, Range<usize>),
    ) {
        let mut size = length(draft);
        while size > 0 {
            let mut end = length(draft);
            while end > 0 {
                let start = end.saturating_sub(size);
                self.try_draft(draft, |draft| drop(draft, start..end));
                end = start.min(length(draft));
            }
            size /= 2;
        }
    }

    /// Drops parts of the job and lowers numbers, as far as it goes.
    fn smaller_draft(&mut self, mut draft: Draft) -> Draft {
        let draft = &mut draft;
        loop {
            let before = draft.job();
            self.shorten(
                draft,
                |draft| draft.patches.len(),
                |draft, gone| {
                    draft.patches.drain(gone);
                },
            );
            for patch in 0..draft.patches.len() {
                self.shorten(
                    draft,
                    |draft| draft.patches[patch].entries.len(),
                    |draft, gone| {
                        draft.patches[patch].entries.drain(gone);
                    },
                );
                self.shorten(
                    draft,
                    |draft| draft.patches[patch].free.len(),
                    |draft, gone| {
                        draft.patches[patch].free.drain(gone);
                    },
                );
            }
            self.shorten(draft, |draft| draft.target.banks.len(), drop_banks);
            self.shorten(draft, |draft| draft.target.registers.len(), drop_registers);
            self.shorten(draft, |draft| draft.target.classes.len(), drop_classes);
            self.shorten(draft, |draft| draft.values.len(), drop_values);
            self.shorten(draft, |draft| few(draft.slots), drop_slots);
            self.shorten(draft, |draft| few(draft.target.units), drop_units);
            for class in 0..draft.target.classes.len() {
                self.shorten(
                    draft,
                    |draft| draft.target.classes[class].order.len(),
                    |draft, gone| {
                        draft.target.classes[class].order.drain(gone);
                    },
                );
                self.shorten(
                    draft,
                    |draft| draft.target.classes[class].members.len(),
                    |draft, gone| {
                        let class = &mut draft.target.classes[class];
                        let gone: Vec<usize> = class.members.drain(gone).collect();
                        class.order.retain(|reg| !gone.contains(reg));
                    },
                );
            }
            self.lower_numbers(draft);
            if draft.job() == before || self.late() {
                return draft.clone();
            }
        }
    }

    fn lower_numbers(&mut self, draft: &mut Draft) {
        for limit in [0, 1, 2, draft.emergency_limit / 2] {
            if limit < draft.emergency_limit {
                self.try_draft(draft, |draft| draft.emergency_limit = limit);
            }
        }
        for bank in 0..draft.target.banks.len() {
            self.try_draft(draft, |draft| draft.target.banks[bank].size_log2 = 0);
        }
        for reg in 0..draft.target.registers.len() {
            self.try_draft(draft, |draft| draft.target.registers[reg].memory = false);
        }
        for value in 0..draft.values.len() {
            self.try_draft(draft, |draft| draft.values[value].cost = COST_NONE);
        }
        for patch in 0..draft.patches.len() {
            for entry in 0..draft.patches[patch].entries.len() {
                self.try_draft(draft, |draft| draft.patches[patch].entries[entry].value = 0);
            }
        }
    }

    /// Takes a change of the bytes if the answers still differ after it.
    fn try_bytes(&mut self, job: &mut Vec<u8>, changed: Vec<u8>) -> bool {
        let taken = !self.late() && changed != *job && (self.differs)(&changed);
        if taken {
            *job = changed;
        }
        taken
    }

    /// Drops bytes and lowers them, whatever they mean.
    fn smaller_bytes(&mut self, mut job: Vec<u8>) -> Vec<u8> {
        let mut size = job.len();
        while size > 0 {
            let mut end = job.len();
            while end > 0 {
                let start = end.saturating_sub(size);
                let mut changed = job.clone();
                changed.drain(start..end);
                self.try_bytes(&mut job, changed);
                end = start;
            }
            size /= 2;
        }
        for at in 0..job.len() {
            let byte = job[at];
            for lower in [0, 1, byte / 2, byte.wrapping_sub(1)] {
                if lower < job[at] {
                    let mut changed = job.clone();
                    changed[at] = lower;
                    if self.try_bytes(&mut job, changed) {
                        break;
                    }
                }
            }
        }
        job
    }
}

/// A count that stands for nothing that is listed, unless it is far past its
/// limit.
fn few(count: usize) -> usize {
    if count < 10_000 { count } else { 0 }
}

/// The new number of what was `index`, if it is not gone itself.
fn renumbered(index: usize, gone: &Range<usize>) -> Option<usize> {
    if index < gone.start {
        Some(index)
    } else if index < gone.end {
        None
    } else {
        Some(index - gone.len())
    }
}

/// Numbers a list anew and drops what is gone.
fn renumber(list: &mut Vec<usize>, gone: &Range<usize>) {
    *list = list.iter().filter_map(|&n| renumbered(n, gone)).collect();
}

/// Numbers the places of all entries anew, and drops the entries of those that
/// are gone.
fn renumber_places(draft: &mut Draft, new: impl Fn(Place) -> Option<Place>) {
    for patch in &mut draft.patches {
        patch.entries.retain_mut(|entry| {
            let source = entry.source.map(&new);
            let (Some(dest), true) = (new(entry.dest), source != Some(None)) else {
                return false;
            };
            entry.source = source.flatten();
            entry.dest = dest;
            true
        });
    }
}

/// Banks go with their registers, classes and values.
fn drop_banks(draft: &mut Draft, gone: Range<usize>) {
    for reg in (0..draft.target.registers.len()).rev() {
        if gone.contains(&draft.target.registers[reg].bank) {
            drop_registers(draft, reg..reg + 1);
        }
    }
    for class in (0..draft.target.classes.len()).rev() {
        if gone.contains(&draft.target.classes[class].bank) {
            drop_classes(draft, class..class + 1);
        }
    }
    for value in (0..draft.values.len()).rev() {
        if gone.contains(&draft.values[value].bank) {
            drop_values(draft, value..value + 1);
        }
    }
    let target = &mut draft.target;
    let registers = target.registers.iter_mut().map(|r| &mut r.bank);
    let classes = target.classes.iter_mut().map(|c| &mut c.bank);
    let values = draft.values.iter_mut().map(|v| &mut v.bank);
    for bank in registers.chain(classes).chain(values) {
        *bank = renumbered(*bank, &gone).unwrap_or(0);
    }
    target.banks.drain(gone);
}

fn drop_registers(draft: &mut Draft, gone: Range<usize>) {
    renumber_places(draft, |place| match place {
        Place::Register(reg) => renumbered(reg, &gone).map(Place::Register),
        Place::Slot(_) => Some(place),
    });
    for class in &mut draft.target.classes {
        renumber(&mut class.members, &gone);
        renumber(&mut class.order, &gone);
    }
    draft.target.registers.drain(gone);
}

/// A bank whose class is gone names class 0, and a value that was rebuilt by it
/// cannot be rebuilt.
fn drop_classes(draft: &mut Draft, gone: Range<usize>) {
    for bank in &mut draft.target.banks {
        for class in [&mut bank.top_level_class, &mut bank.stack_class] {
            *class = renumbered(*class, &gone).unwrap_or(0);
        }
    }
    for value in &mut draft.values {
        match renumbered(value.class, &gone) {
            Some(class) => value.class = class,
            None => value.cost = COST_NONE,
        }
    }
    draft.target.classes.drain(gone);
}

fn drop_values(draft: &mut Draft, gone: Range<usize>) {
    for patch in &mut draft.patches {
        patch.entries.retain_mut(|entry| {
            let new = renumbered(entry.value, &gone);
            entry.value = new.unwrap_or(0);
            new.is_some()
        });
    }
    draft.values.drain(gone);
}

fn drop_slots(draft: &mut Draft, gone: Range<usize>) {
    renumber_places(draft, |place| match place {
        Place::Slot(slot) => renumbered(slot, &gone).map(Place::Slot),
        Place::Register(_) => Some(place),
    });
    draft.slots -= gone.len();
}

fn drop_units(draft: &mut Draft, gone: Range<usize>) {
    for register in &mut draft.target.registers {
        renumber(&mut register.units, &gone);
    }
    for patch in &mut draft.patches {
        renumber(&mut patch.free, &gone);
    }
    draft.target.units -= gone.len();
}
