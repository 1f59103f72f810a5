//! The rule of `docs/JOB.md` for splitting a patch: the parts, one after the
//! other, do what the whole does, or would do if its sources did not overlap.

mod common;

use std::collections::HashMap;

use common::encoded;
use common::machine::{Machine, Place, Register};
use parallel_moves::{Answer, Edit, Refusal, Resolver};

/// Ordinary slots of a random machine.
const SLOTS: u16 = 4;

/// A small generator of random numbers.
struct Random(u64);

impl Random {
    /// A number below `n`.
    fn below(&mut self, n: usize) -> usize {
        self.0 = self.0.wrapping_mul(6_364_136_223_846_793_005);
        self.0 = self.0.wrapping_add(1_442_695_040_888_963_407);
        (self.0 >> 33) as usize % n
    }

    fn one_in(&mut self, n: usize) -> bool {
        self.below(n) == 0
    }
}

/// A move, or a rebuild if there is no source.
#[derive(Clone, Copy)]
struct Entry {
    source: Option<Place>,
    dest: Place,
    value: u16,
}

/// A part of a patch: its free units and its entries.
struct Part {
    free: Vec<usize>,
    entries: Vec<Entry>,
}

/// Units below 100, and 100 + s for slot s.
fn units(registers: &[Register], place: Place) -> Vec<usize> {
    match place {
        Place::Register(r) => registers[r as usize].units.clone(),
        Place::Slot(s) => vec![100 + s as usize],
    }
}

fn overlap(registers: &[Register], a: Place, b: Place) -> bool {
    let b = units(registers, b);
    units(registers, a).iter().any(|unit| b.contains(unit))
}

/// The registers: single ones of bank 0, pairs of bank 1 that share units, and a
/// memory one of bank 0 and two of bank 1, of one unit each.
fn registers() -> Vec<Register> {
    let register = |memory, bank, units: &[usize]| Register {
        memory,
        bank,
        units: units.to_vec(),
    };
    let mut registers: Vec<Register> = (0..6).map(|unit| register(false, 0, &[unit])).collect();
    for pair in [[0, 1], [2, 3], [4, 5], [1, 2], [3, 4]] {
        registers.push(register(false, 1, &pair));
    }
    for (unit, bank) in [(6, 0), (7, 1), (8, 1)] {
        registers.push(register(true, bank, &[unit]));
    }
    registers
}

/// A job over these registers. Value v has the bank `banks[v]`, and can be
/// rebuilt in any register that is not memory if `remat` says so. Memory is
/// taken first for scratch where it may be.
fn job(
    registers: &[Register],
    slots: u16,
    banks: &[usize],
    remat: &[bool],
    parts: &[Part],
) -> Vec<u8> {
    let units = 1 + registers.iter().flat_map(|r| &r.units).max().unwrap();
    let mut numbers = vec![units as u32, 2, 3, 0, 1, 4, 2, 3, registers.len() as u32];
    for register in registers {
        let units = &register.units;
        numbers.extend([
            register.memory.into(),
            register.bank as u32,
            units.len() as u32,
        ]);
        numbers.extend(units.iter().map(|&unit| unit as u32));
    }
    numbers.push(4);
    for bank in [0, 1] {
        let own = (0..).zip(registers).filter(|(_, r)| r.bank == bank);
        let (memory, others): (Vec<_>, Vec<_>) = own.partition(|(_, r)| r.memory);
        for includes_slots in [1, 0] {
            numbers.extend([bank as u32, includes_slots]);
            let memory = memory.iter().filter(|_| includes_slots == 1);
            let members: Vec<u32> = memory.chain(&others).map(|&(i, _)| i).collect();
            for _ in 0..2 {
                numbers.push(members.len() as u32);
                numbers.extend(&members);
            }
        }
    }
    numbers.extend([banks.len() as u32, slots.into(), 2048]);
    for (&bank, &remat) in banks.iter().zip(remat) {
        let bank = bank as u32;
        numbers.extend(if remat {
            vec![bank, 2, 2 * bank + 1]
        } else {
            vec![bank, 0]
        });
    }
    numbers.push(parts.len() as u32);
    for part in parts {
        numbers.push(part.free.len() as u32);
        numbers.extend(part.free.iter().map(|&unit| unit as u32));
        numbers.push(part.entries.len() as u32);
        for entry in &part.entries {
            match entry.source {
                Some(source) => numbers.extend([0, source.code()]),
                None => numbers.push(1),
            }
            numbers.extend([entry.dest.code(), entry.value.into()]);
        }
    }
    encoded(numbers)
}

/// A split that keeps to the rule, by chance, or none.
fn split(
    random: &mut Random,
    registers: &[Register],
    entries: &[Entry],
    free: &[usize],
) -> Option<Vec<Part>> {
    let count = 2 + random.below(2);
    let mut parts: Vec<Part> = (0..count)
        .map(|_| Part {
            free: vec![],
            entries: vec![],
        })
        .collect();
    for &entry in entries {
        parts[random.below(count)].entries.push(entry);
    }
    // No part has a source that overlaps a destination of an earlier part.
    for (later, part) in parts.iter().enumerate() {
        for source in part.entries.iter().filter_map(|entry| entry.source) {
            let mut earlier = parts[..later].iter().flat_map(|part| &part.entries);
            if earlier.any(|entry| overlap(registers, source, entry.dest)) {
                return None;
            }
        }
    }
    // No part lists as free a unit of a source or destination of another part.
    for index in 0..count {
        let others = (0..count).filter(|&other| other != index);
        let touched: Vec<usize> = others
            .flat_map(|other| &parts[other].entries)
            .flat_map(|entry| entry.source.into_iter().chain([entry.dest]))
            .flat_map(|place| units(registers, place))
            .collect();
        let part_free = free.iter().copied().filter(|unit| !touched.contains(unit));
        parts[index].free = part_free.filter(|_| !random.one_in(4)).collect();
    }
    Some(parts)
}

/// Each emergency slot is named in the patch that makes it, and each edit that
/// names it tells the same bank (the banks have slots of different sizes).
fn check_slots(registers: &[Register], banks: &[usize], answer: &Answer) {
    let mut bank_of: HashMap<u16, usize> = HashMap::new();
    for patch in answer.patches() {
        for edit in patch.edits() {
            let (slots, bank) = match edit {
                Edit::Move { to, from, value } => (vec![to, from], banks[value.index()]),
                Edit::Rematerialize { to, value } => (vec![to], banks[value.index()]),
                Edit::EmergencySpill { to, from } => {
                    (vec![to.into()], registers[from.index()].bank)
                }
                Edit::EmergencyReload { to, from } => {
                    (vec![from.into()], registers[to.index()].bank)
                }
            };
            for place in slots {
                match Place::from(place) {
                    Place::Slot(slot) if slot >= SLOTS => {
                        assert_eq!(*bank_of.entry(slot).or_insert(bank), bank, "{edit}");
                    }
                    _ => {}
                }
            }
        }
        let mut made: Vec<u16> = bank_of.keys().copied().collect();
        made.sort();
        assert!(made.into_iter().eq(SLOTS..SLOTS + patch.made() as u16));
    }
}

/// Whether two sources overlap and are not equal. None of them is rebuilt.
fn sources_overlap(registers: &[Register], entries: &[Entry]) -> bool {
    let sources: Vec<Place> = entries.iter().filter_map(|entry| entry.source).collect();
    let unequal = |a, b| a != b && overlap(registers, a, b);
    sources
        .iter()
        .any(|&a| sources.iter().any(|&b| unequal(a, b)))
}

/// What became of a random patch.
#[derive(PartialEq)]
enum Tried {
    /// Chance gave no split, or one with a part that 21 refuses.
    NotSplit,
    /// Its parts did what it does.
    Split,
    /// It is refused by 21, and its parts did what it was to do.
    Cured,
}

/// Splits a random patch, if chance gives a split, and compares.
fn try_one(random: &mut Random, resolver: &mut Resolver) -> Tried {
    let registers = registers();
    let mut start = Machine {
        registers: registers.clone(),
        units: (0..9).map(|unit| 1000 + unit).collect(),
        words: HashMap::new(),
        slots: HashMap::new(),
    };
    for register in registers.iter().filter(|register| register.memory) {
        let unit = register.units[0];
        let words = (0..=register.bank as u32).map(|i| 1500 + 10 * unit as u32 + i);
        start.words.insert(unit, words.collect());
    }
    // Slots 0 and 1 have one word, 2 and 3 two.
    for slot in 0..SLOTS {
        let words = (0..=u32::from(slot) / 2).map(|i| 2000 + 10 * u32::from(slot) + i);
        start.slots.insert(slot, words.collect());
    }
    // Each place holds a value of its own; two more can be rebuilt.
    let mut places: Vec<Place> = (0..registers.len() as u16).map(Place::Register).collect();
    places.extend((0..SLOTS).map(Place::Slot));
    let bank = |place| start.read(place).len() - 1;
    let mut banks: Vec<usize> = places.iter().map(|&place| bank(place)).collect();
    banks.extend([0, 1]);
    let mut remat = vec![false; places.len()];
    remat.extend([true, true]);
    let content = |value: u16| match places.get(value as usize) {
        Some(&place) => start.read(place),
        None => vec![3000; 1 + banks[value as usize]],
    };

    let mut entries: Vec<Entry> = Vec::new();
    for _ in 0..1 + random.below(8) {
        let dest = places[random.below(places.len())];
        let value = random.below(banks.len());
        let source = places.get(value).copied();
        let taken = entries
            .iter()
            .any(|entry| overlap(&registers, entry.dest, dest));
        let foreign =
            matches!(dest, Place::Register(r) if registers[r as usize].bank != banks[value]);
        if !taken && !foreign && source != Some(dest) {
            let value = value as u16;
            entries.push(Entry {
                source,
                dest,
                value,
            });
        }
    }
    let dests: Vec<usize> = entries
        .iter()
        .flat_map(|entry| units(&registers, entry.dest))
        .collect();
    let free: Vec<usize> = (0..9)
        .filter(|unit| !dests.contains(unit) && random.one_in(2))
        .collect();
    let Some(parts) = split(random, &registers, &entries, &free) else {
        return Tried::NotSplit;
    };

    let whole = [Part {
        free: free.clone(),
        entries: entries.clone(),
    }];
    let mut tried = Tried::Split;
    let kept_evictions = 1 + random.below(2) as u32;
    for parts in [&whole[..], &parts] {
        let job = job(&registers, SLOTS, &banks, &remat, parts);
        let answer = resolver.answer(kept_evictions, &job);
        let refused = parts
            .iter()
            .any(|part| sources_overlap(&registers, &part.entries));
        if refused {
            let refusal = answer.unwrap_err().refusal();
            assert_eq!(refusal, Refusal::OverlappingSources);
            tried = match tried {
                Tried::Split => Tried::Cured,
                _ => Tried::NotSplit,
            };
            continue;
        }
        let answer = answer.unwrap();
        assert_eq!(answer.patches().count(), parts.len());
        check_slots(&registers, &banks, &answer);
        let mut machine = start.clone();
        for patch in answer.patches() {
            machine.run(patch.edits(), &content);
        }
        for entry in &entries {
            assert_eq!(machine.read(entry.dest), content(entry.value));
        }
        for unit in (0..9).filter(|unit| !dests.contains(unit) && !free.contains(unit)) {
            assert_eq!(machine.units[unit], start.units[unit]);
            assert_eq!(machine.words.get(&unit), start.words.get(&unit));
        }
        for slot in (0..SLOTS).filter(|&slot| !dests.contains(&(100 + slot as usize))) {
            assert_eq!(machine.slots[&slot], start.slots[&slot]);
        }
    }
    tried
}

#[test]
fn parts_do_what_the_whole_does() {
    let mut random = Random(1);
    let mut resolver = Resolver::new();
    let (mut split, mut cured) = (0, 0);
    for _ in 0..60_000 {
        match try_one(&mut random, &mut resolver) {
            Tried::NotSplit => {}
            Tried::Split => split += 1,
            Tried::Cured => cured += 1,
        }
    }
    assert!(split > 20_000 && cured > 2000, "{split} {cured}");
}

/// Registers 0 to 199 of one unit each, value r in register r.
fn two_hundred() -> (Vec<Register>, Machine) {
    let register = |unit| Register {
        memory: false,
        bank: 0,
        units: vec![unit],
    };
    let mut registers: Vec<Register> = (0..200).map(register).collect();
    // The second bank has a register of its own.
    registers.push(Register {
        memory: false,
        bank: 1,
        units: vec![200, 201],
    });
    let machine = Machine {
        registers: registers.clone(),
        units: (0..202).collect(),
        words: HashMap::new(),
        slots: HashMap::new(),
    };
    (registers, machine)
}

fn moved(source: Place, dest: Place, value: u16) -> Entry {
    let source = Some(source);
    Entry {
        source,
        dest,
        value,
    }
}

/// What 200 registers hold when all parts are done.
fn after(parts: &[Part], slots: u16) -> Vec<u32> {
    let (registers, mut machine) = two_hundred();
    let answer = Resolver::new()
        .answer(1, &job(&registers, slots, &[0; 200], &[false; 200], parts))
        .unwrap();
    for patch in answer.patches() {
        machine.run(patch.edits(), &|_| unreachable!());
    }
    machine.units[..200].to_vec()
}

/// A chain from 0 to 199 in two parts, from its end.
#[test]
fn a_long_chain() {
    let link = |n| moved(Place::Register(n), Place::Register(n + 1), n);
    let part = |links: std::ops::Range<u16>| Part {
        free: vec![],
        entries: links.map(link).collect(),
    };
    let chained: Vec<u32> = [0].into_iter().chain(0..199).collect();
    assert_eq!(after(&[part(99..199), part(0..99)], 0), chained);
    // From its beginning a value is lost.
    assert_ne!(after(&[part(0..99), part(99..199)], 0), chained);
}

/// A cycle of 200 moves, by a slot of its own.
#[test]
fn a_long_cycle() {
    let link = |n| moved(Place::Register(n), Place::Register(n + 1), n);
    let part = |entries| Part {
        free: vec![],
        entries,
    };
    let parts = [
        part(vec![moved(Place::Register(199), Place::Slot(0), 199)]),
        part((99..199).map(link).collect()),
        part((0..99).map(link).collect()),
        part(vec![moved(Place::Slot(0), Place::Register(0), 199)]),
    ];
    let turned: Vec<u32> = [199].into_iter().chain(0..199).collect();
    assert_eq!(after(&parts, 1), turned);
}
