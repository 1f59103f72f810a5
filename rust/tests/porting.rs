//! The module `regalloc3`, and what `docs/PORTING.md` says of it. `compare/regalloc3` holds it
//! against the original.

mod common;

use std::cell::RefCell;
use std::fs;

use common::root;
use parallel_moves::regalloc3::ParallelMoves;
use parallel_moves::{
    Class, Edit, JobBuilder, PatchPart, PhysReg, Refusal, RegBank, SpillSlot, TargetBuilder, Value,
};

fn paper() -> String {
    fs::read_to_string(root().join("docs/PORTING.md")).unwrap()
}

/// Two values of the bank of d0 to d15, which are registers 32 to 47, and two slots.
fn vfp() -> (JobBuilder, [Value; 2]) {
    let mut job = JobBuilder::on(TargetBuilder::named("vfp").unwrap());
    let function = job.function();
    let values = [(); 2].map(|()| function.value(RegBank::new(1)));
    function.slots(2).emergency_slots(1);
    (job, values)
}

fn edits(moves: &ParallelMoves) -> Vec<String> {
    moves.edits().map(|edit| edit.to_string()).collect()
}

/// d0 and d1 change their contents.
fn swap(moves: &mut ParallelMoves, [v0, v1]: [Value; 2]) {
    let [d0, d1] = [32, 33].map(|number| PhysReg::new(number).into());
    moves.new_parallel_move();
    moves.add_move(d0, d1, v0);
    moves.add_move(d1, d0, v1);
}

#[test]
fn calls() {
    let (job, values) = vfp();
    let mut moves = ParallelMoves::new();
    // Without a function nothing is resolved.
    swap(&mut moves, values);
    assert_eq!(moves.resolve(|_| false), Err(Refusal::NamesNothing));
    assert!(moves.explain(Refusal::NamesNothing).is_none() && moves.opened().is_none());

    moves.prepare(&job).unwrap();
    assert!(edits(&moves).is_empty() && moves.patch().is_empty());
    swap(&mut moves, values);
    // Every unit is asked about, once.
    let asked = RefCell::new(Vec::new());
    let resolved = moves.resolve(|unit| {
        asked.borrow_mut().push(unit.index());
        false
    });
    assert_eq!(resolved, Ok(()));
    assert!(asked.into_inner().into_iter().eq(0..32));
    assert_eq!(edits(&moves), ["M s2 r33 1", "M r33 r32 0", "M r32 s2 1"]);
    let new: Vec<(SpillSlot, u32)> = moves.new_spillslots().collect();
    assert_eq!(new, [(SpillSlot::new(2), 3)]);

    // The slot is taken again, and no new one is made.
    moves.resolve(|_| false).unwrap();
    assert_eq!(edits(&moves).len(), 3);
    assert_eq!(moves.new_spillslots().count(), 0);
    let sizes = [0, 1, 2, 3].map(|slot| moves.slot_size(SpillSlot::new(slot)));
    assert_eq!(sizes, [None, None, Some(3), None]);

    // With free units none is needed.
    moves.resolve(|unit| unit.index() >= 4).unwrap();
    assert_eq!(edits(&moves), ["M r34 r33 1", "M r33 r32 0", "M r32 r34 1"]);
    assert_eq!(moves.patch().free_units().len(), 28);
}

#[test]
fn refused_patches() {
    let (job, values) = vfp();
    let mut moves = ParallelMoves::new();
    moves.prepare(&job).unwrap();
    swap(&mut moves, values);
    moves.add_remat(PhysReg::new(40).into(), values[0]);
    assert_eq!(moves.resolve(|_| false), Err(Refusal::CannotRematerialize));
    assert!(edits(&moves).is_empty());
    let explanation = moves.explain(Refusal::CannotRematerialize).unwrap();
    assert_eq!(explanation.part(), PatchPart::Entry(3));
    assert_eq!(explanation.why(), "value 0 cannot be rebuilt");
    // A destination's unit that is free.
    swap(&mut moves, values);
    assert_eq!(
        moves.resolve(|unit| unit.index() == 3),
        Err(Refusal::FreeDestination)
    );
    // A refused function is none, whichever way it is given.
    assert_eq!(moves.prepare_bytes(&[]), Err(Refusal::NotANumber));
    assert!(moves.opened().is_none());
    moves.prepare(&job).unwrap();
    assert!(moves.opened().is_some());
    let none = JobBuilder::new();
    assert_eq!(moves.prepare(&none), Err(Refusal::NamesNothing));
    assert!(moves.opened().is_none());
}

/// The lines that read the traits are those that `compare/regalloc3` runs.
#[test]
fn bridge_is_compared() {
    let paper = paper();
    let block = paper
        .split("```rust,ignore\n")
        .find(|block| block.contains("fn target("))
        .unwrap();
    let (_, code) = block
        .split_once("use regalloc3::reginfo::RegInfo;\n\n")
        .unwrap();
    let (code, _) = code.split_once("```").unwrap();
    let run = fs::read_to_string(root().join("compare/src/ported/bridge.rs")).unwrap();
    assert!(
        run.contains(code),
        "compare/src/ported/bridge.rs has other lines"
    );
}

/// The edits as they are printed here are read.
#[test]
fn printed_edits() {
    let paper = paper();
    let (_, table) = paper
        .split_once("They are printed in another way:")
        .unwrap();
    let rows = table.lines().filter(|line| line.starts_with("| `")).take(4);
    for row in rows {
        let cells: Vec<&str> = row.split('`').collect();
        let edit: Edit = cells[3].parse().unwrap();
        assert_eq!(edit.to_string(), cells[3]);
        let word = match edit {
            Edit::Move { .. } => "move ",
            Edit::Rematerialize { .. } => "remat ",
            Edit::EmergencySpill { .. } => "emergency spill ",
            Edit::EmergencyReload { .. } => "emergency reload ",
        };
        assert!(cells[1].starts_with(word), "{row}");
    }
}

/// A register that is not allocatable has a memory register with a unit of its own in its
/// place: the others keep their numbers, and nothing else changes.
#[test]
fn register_without_a_bank() {
    let job = |placeholder: bool| {
        let mut job = JobBuilder::new();
        let target = job.target();
        let bank = target.bank(3);
        let r0 = target.register(&[0, 1]);
        if placeholder {
            target.memory_register(6);
        }
        let others = [[2, 3], [4, 5]].map(|units| target.register(&units));
        let all = [r0, others[0], others[1]];
        let top = target.class(Class::of(&all).with_slots());
        let stack = target.class(Class::of(&all));
        target.top_level_class(bank, top).stack_class(bank, stack);
        let values = [(); 2].map(|()| job.function().value(bank));
        (job, all, values)
    };
    let swapped = |placeholder| {
        let (job, [r0, one, other], [v0, v1]) = job(placeholder);
        let mut moves = ParallelMoves::new();
        moves.prepare(&job).unwrap();
        moves.add_move(r0.into(), one.into(), v0);
        moves.add_move(one.into(), r0.into(), v1);
        moves.resolve(|_| false).unwrap();
        (edits(&moves).join(", "), other)
    };
    let (without, last) = swapped(false);
    assert_eq!(
        (without.as_str(), last),
        ("M s0 r1 1, M r1 r0 0, M r0 s0 1", PhysReg::new(2))
    );
    let (with, last) = swapped(true);
    assert_eq!((with, last), (without.replace("r1", "r2"), PhysReg::new(3)));
}
