//! Which part of a job it is that the library refuses.
//!
//! A job is read number by number, so that the number at which it is refused is the
//! last of the shortest beginning that is refused otherwise than for being cut off. The
//! library is asked for it, and no test of its is made here a second time. What is
//! tested of a whole target or a whole patch is then looked for among its parts. So it is
//! done with the numbers of a job that is to be written, and with bytes that were read.

use std::collections::HashMap;

use crate::builder::{JobBuilder, Part, TargetBuilder};
use crate::entity::{AllocationKind, PhysReg, RegBank, RegClass, RegUnit};
use crate::patch::{Entry, Patch};
use crate::reading::{Location, Reading};
use crate::refusal::Refusal;
use crate::resolver::Resolver;
use crate::writer::{JobWriter, MOST_BYTES, length};

/// The part of a job at which the library refuses its numbers.
pub(crate) fn part(
    job: &JobBuilder,
    writer: &mut JobWriter,
    numbers: &[u32],
    refusal: Refusal,
) -> Part {
    // 2 for its length comes before all else.
    if length(numbers) > MOST_BYTES {
        return Part::Job;
    }
    let mut parts = Vec::with_capacity(numbers.len());
    job.each_number(|_, part| parts.push(part));
    let last = last_number(writer, numbers);
    let at = parts.get(last).copied().unwrap_or(Part::Job);
    among_parts(job, refusal, at).unwrap_or(at)
}

/// Where a job's bytes are refused so, if it is told by a reading of them here, and by the
/// library's answers to their beginnings.
pub(crate) fn location(
    resolver: &mut Resolver,
    kept_evictions: u32,
    job: &[u8],
    refusal: Refusal,
) -> Option<Location> {
    if job.len() > MOST_BYTES {
        let too_long = refusal == Refusal::NamesNothing;
        return too_long.then_some(Location::new(MOST_BYTES, Part::Job));
    }
    let Reading {
        job: read,
        numbers,
        end,
    } = Reading::of(job);
    let mut refusal_of = |end: usize| {
        let refused = resolver.answer(kept_evictions, &job[..end]).err();
        refused.map(|refused| refused.refusal())
    };
    let cut_off = Some(Refusal::NotANumber);
    if refusal_of(0) != cut_off {
        // It is not the job.
        return None;
    }
    let last = first_not(numbers.len(), |index| {
        refusal_of(numbers[index].1.end) == cut_off
    });
    let Some((at, range)) = numbers.get(last) else {
        // All that could be read here is a job cut off.
        let stopped = end.err().filter(|stopped| stopped.refusal() == refusal);
        return stopped.map(|stopped| stopped.location());
    };
    match refusal_of(range.end) {
        None if refusal == Refusal::LeftOver && range.end < job.len() => {
            Some(Location::new(range.end, Part::Job))
        }
        refused if refused == Some(refusal) => {
            let part = among_parts(&read, refusal, *at).unwrap_or(*at);
            // 1 to 3 are of the number alone, others of its whole part.
            let of_number = part == *at && refusal.number() <= 3;
            let mut of_part = numbers.iter().filter(|(of, _)| *of == part);
            let first = of_part.next().filter(|_| !of_number);
            let range = first.map_or(range, |(_, range)| range);
            Some(Location::new(range.start, part))
        }
        _ => None,
    }
}

/// Where the last number of the shortest beginning stands that is refused otherwise than
/// for being cut off. Nothing is lent, and so nothing written.
fn last_number(writer: &mut JobWriter, numbers: &[u32]) -> usize {
    first_not(numbers.len(), |index| {
        let refused = writer.write_into(&numbers[..=index], &mut []);
        refused == Err(Refusal::NotANumber)
    })
}

/// The first index that is not so, of indices that are so up to one.
fn first_not(length: usize, mut is_so: impl FnMut(usize) -> bool) -> usize {
    let (mut below, mut above) = (0, length);
    while below < above {
        let middle = below + (above - below) / 2;
        if is_so(middle) {
            below = middle + 1;
        } else {
            above = middle;
        }
    }
    below
}

/// The part that is refused, where it is another than the one that was read last.
fn among_parts(job: &JobBuilder, refusal: Refusal, at: Part) -> Option<Part> {
    let target = &job.target;
    match (refusal, at) {
        (Refusal::NamesNothing, Part::Classes) => nameless_class(target),
        (Refusal::UnequalWidths, _) => unequal_width(target),
        (Refusal::ForeignMember, _) => foreign_member(target),
        (Refusal::SharedMemory, _) => shared_memory(target),
        (Refusal::UnfitClass, _) => unfit_class(target),
        (Refusal::TooManyEntries, Part::Entry(patch, entry)) => Some(Part::Entry(patch, entry + 1)),
        (Refusal::FreeDestination, Part::Entry(patch, _)) => free_destination(job, patch),
        (Refusal::EvictsDestination, Part::Entry(patch, _)) => evicts_destination(job, patch),
        (Refusal::OutOfSlots, Part::Entry(patch, _)) => Some(Part::Patch(patch)),
        _ => None,
    }
}

/// Things with their numbers.
fn numbered<T>(list: &[T]) -> impl Iterator<Item = (u32, &T)> {
    (0..).zip(list)
}

/// 2: the first bank with a class that is none. The classes are few enough, if there is
/// one.
fn nameless_class(target: &TargetBuilder) -> Option<Part> {
    let is_none = |class: Option<RegClass>| class.is_none_or(|c| c.index() >= target.classes.len());
    let mut banks = numbered(&target.banks);
    let bank = banks.find(|(_, bank)| is_none(bank.top_level_class) || is_none(bank.stack_class));
    let few = (1..=64).contains(&target.classes.len());
    bank.filter(|_| few)
        .map(|(index, _)| Part::Bank(RegBank(index)))
}

/// 4: the first memory register of several units, or register that is as wide as no other
/// before it of its bank.
fn unequal_width(target: &TargetBuilder) -> Option<Part> {
    let mut widths = HashMap::new();
    let mut registers = numbered(&target.registers);
    let unequal = registers.find(|(_, register)| {
        let width = register.units.len();
        match register.memory {
            true => width != 1,
            false => *widths.entry(register.bank).or_insert(width) != width,
        }
    });
    unequal.map(|(index, _)| Part::Register(PhysReg(index)))
}

/// 5: the first bank with a class of another, or class with a register of another bank or
/// with an order entry that is no member.
fn foreign_member(target: &TargetBuilder) -> Option<Part> {
    let bank_of = |class: Option<RegClass>| target.classes.get(class?.index())?.bank;
    let mut banks = numbered(&target.banks);
    let bank = banks.find(|(index, bank)| {
        let own = Some(RegBank(*index));
        bank_of(bank.top_level_class) != own || bank_of(bank.stack_class) != own
    });
    if let Some((index, _)) = bank {
        return Some(Part::Bank(RegBank(index)));
    }
    let bank_of = |register: &PhysReg| Some(target.registers.get(register.index())?.bank);
    let mut classes = numbered(&target.classes);
    let class = classes.find(|(_, class)| {
        let foreign = class
            .members
            .iter()
            .any(|member| bank_of(member) != class.bank);
        foreign
            || class
                .order
                .iter()
                .any(|entry| !class.members.contains(entry))
    });
    class.map(|(index, _)| Part::Class(RegClass(index)))
}

/// 6: the first register that shares a unit with an earlier one of the other kind.
fn shared_memory(target: &TargetBuilder) -> Option<Part> {
    let mut kinds = HashMap::new();
    let mut registers = numbered(&target.registers);
    let shared = registers.find(|(_, register)| {
        let mut units = register.units.iter();
        units.any(|unit| *kinds.entry(unit).or_insert(register.memory) != register.memory)
    });
    shared.map(|(index, _)| Part::Register(PhysReg(index)))
}

/// 7: the first class that cannot serve its bank, or cannot be searched.
fn unfit_class(target: &TargetBuilder) -> Option<Part> {
    let is_memory = |register: &PhysReg| {
        let register = target.registers.get(register.index());
        register.is_some_and(|register| register.memory)
    };
    for bank in &target.banks {
        let (top, stack) = (bank.top_level_class?, bank.stack_class?);
        if !target.classes.get(top.index())?.slots {
            return Some(Part::Class(top));
        }
        let class = target.classes.get(stack.index())?;
        if class.slots || class.order.iter().any(is_memory) {
            return Some(Part::Class(stack));
        }
    }
    let mut classes = numbered(&target.classes);
    let class = classes.find(|(_, class)| {
        let last = class.order.last();
        !class.slots && last.is_none_or(is_memory)
    });
    class.map(|(index, _)| Part::Class(RegClass(index)))
}

/// A patch by its number.
fn patch_of(job: &JobBuilder, number: usize) -> Option<&Patch> {
    job.patches.get(number.checked_sub(1)?)
}

/// 13: the first free unit that is a destination's.
fn free_destination(job: &JobBuilder, number: usize) -> Option<Part> {
    let patch = patch_of(job, number)?;
    let written = |unit: &&RegUnit| {
        let mut entries = patch.entries();
        entries.any(|entry| job.target.units_of(entry.dest()).contains(unit))
    };
    let unit = patch.free.iter().find(written)?;
    Some(Part::FreeUnit(number, *unit))
}

/// 14: the first entry that is rebuilt with a scratch, by a class without slots whose
/// order ends in a register that overlaps the destination.
fn evicts_destination(job: &JobBuilder, number: usize) -> Option<Part> {
    let evicts = |entry: Entry| -> Option<bool> {
        let (source, dest) = (entry.source(), entry.dest());
        let (_, class) = job.function.values.get(entry.value().index())?.remat?;
        let AllocationKind::PhysReg(into) = dest.kind() else {
            return Some(false);
        };
        let remat = source.is_none_or(|source| job.target.is_memory(source));
        let class = job.target.classes.get(class.index())?;
        let overlaps = job.target.overlap(*class.order.last()?, dest);
        Some(remat && !class.slots && !class.members.contains(&into) && overlaps)
    };
    let mut entries = patch_of(job, number)?.entries();
    let entry = entries.position(|entry| evicts(entry) == Some(true))?;
    Some(Part::Entry(number, entry + 1))
}
