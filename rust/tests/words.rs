//! Argument words: memory registers of one unit beside pairs, each holding a whole
//! value. As whole jobs, and patch by patch on the machine of `docs/JOB.md`.

mod common;

use std::collections::HashMap;

use common::machine::{Machine, Place, Register};
use common::{jobs, numbers, printed, text};
use parallel_moves::{
    Allocation, Edit, ParallelMoves, Patch, PhysReg, Refusal, RegUnit, Resolver, SpillSlot, Value,
};

/// The bytes of a trial up to its patches: the pairs r0 and r1, the words r2 and
/// r3, which have the units 4 and 5, and two values; N = L = 2.
fn opening() -> Vec<u8> {
    let jobs = jobs("compare/trials");
    let (_, job) = jobs
        .iter()
        .find(|(name, _)| name == "words-swapped")
        .unwrap();
    // One patch: no free units, and two entries of four numbers.
    let patches = numbers("1 0 2 0 5 7 0 0 7 5 1");
    let (opening, rest) = job.split_at(job.len() - patches.len());
    assert!(rest.iter().map(|&byte| u32::from(byte)).eq(patches));
    opening.to_vec()
}

/// What the registers and slots hold: of each two words.
fn machine() -> Machine {
    let register = |memory, units: &[usize]| Register {
        memory,
        bank: 0,
        units: units.to_vec(),
    };
    Machine {
        registers: vec![
            register(false, &[0, 1]),
            register(false, &[2, 3]),
            register(true, &[4]),
            register(true, &[5]),
        ],
        units: vec![10, 11, 12, 13, 0, 0],
        words: HashMap::from([(4, vec![14, 15]), (5, vec![16, 17])]),
        slots: (0..2).map(|s| (s, vec![20 + u32::from(s), 30])).collect(),
    }
}

fn reg(number: usize) -> Allocation {
    PhysReg::new(number).into()
}

fn slot(number: usize) -> Allocation {
    SpillSlot::new(number).into()
}

#[test]
fn whole_jobs() {
    let mut resolver = Resolver::new();
    let (mut accepted, mut unequal) = (0, 0);
    for (name, job) in jobs("compare/trials") {
        if !name.starts_with("words-") {
            continue;
        }
        assert_eq!(text(&mut resolver, 1, &job), printed(&name), "{name}");
        match resolver.answer(1, &job).map_err(|answer| answer.refusal()) {
            Ok(_) => accepted += 1,
            Err(refusal) => unequal += usize::from(refusal == Refusal::UnequalWidths),
        }
    }
    assert!(accepted >= 10 && unequal >= 7, "{accepted} {unequal}");
}

/// Each of these patches, one after the other, leaves every destination with what
/// its source held, and everything else but free units as it was.
#[test]
fn patch_by_patch() {
    let mut moves = ParallelMoves::open(1, &opening()).unwrap();
    let [r0, r1, r2, r3, s0, s1] = [reg(0), reg(1), reg(2), reg(3), slot(0), slot(1)];
    type Moves<'a> = &'a [(Allocation, Allocation)];
    let patches: [(&[usize], Moves<'_>); 8] = [
        (&[], &[(r0, r1), (r1, r0)]),
        (&[4], &[(r0, r1), (r1, r0)]),
        (&[], &[(r2, r3), (r3, r2)]),
        (&[0, 1], &[(r2, r3), (r3, r2)]),
        (&[2], &[(r2, s0)]),
        (&[], &[(r0, r2), (r2, r1)]),
        (&[], &[(s0, r2), (r2, s1)]),
        (&[4, 5], &[(s0, s1), (s1, s0)]),
    ];
    let (mut through, mut waited) = (0, 0);
    for (free, entries) in patches {
        let mut patch = Patch::new();
        patch.set_free_units(free.iter().map(|&unit| RegUnit::new(unit)));
        for (value, &(source, dest)) in entries.iter().enumerate() {
            patch.add_move(source, dest, Value::new(value));
        }
        let start = machine();
        let mut end = start.clone();
        for edit in &moves.resolve(&patch).unwrap() {
            let scratch = |to| free == [4] && to == r2;
            through += usize::from(matches!(edit, Edit::Move { to, .. } if scratch(to)));
            waited += usize::from(matches!(edit, Edit::EmergencySpill { .. }));
            end.step(edit, &|_| unreachable!());
        }

        let mut spared: Vec<usize> = free.to_vec();
        for &(source, dest) in entries {
            assert_eq!(end.read(dest.into()), start.read(source.into()), "{dest}");
            match Place::from(dest) {
                Place::Register(r) => spared.extend(&start.registers[r as usize].units),
                Place::Slot(s) => {
                    end.slots.insert(s, start.slots[&s].clone());
                }
            }
        }
        for unit in (0..6).filter(|unit| !spared.contains(unit)) {
            assert_eq!(end.units[unit], start.units[unit]);
            assert_eq!(end.words.get(&unit), start.words.get(&unit));
        }
        for slot in [0, 1] {
            assert_eq!(end.slots[&slot], start.slots[&slot]);
        }
    }
    assert!(through == 1 && waited >= 3, "{through} {waited}");
}
