//! A pair and its half as sources of two kept moves: refused by 21, as a whole job
//! and patch by patch.

mod common;

use common::{jobs, numbers, printed, text};
use parallel_moves::{Allocation, Edit, ParallelMoves, Patch, PhysReg, Refusal, Resolver, Value};

/// The bytes of a trial up to its patches.
fn opening() -> Vec<u8> {
    let jobs = jobs("compare/trials");
    let (_, job) = jobs
        .iter()
        .find(|(name, _)| name == "sources-pair-then-half")
        .unwrap();
    // One patch: no free units, and two entries of four numbers.
    let patches = numbers("1 0 2 0 13 15 2 0 1 9 0");
    let (opening, rest) = job.split_at(job.len() - patches.len());
    assert!(rest.iter().map(|&byte| u32::from(byte)).eq(patches));
    opening.to_vec()
}

fn reg(number: usize) -> Allocation {
    PhysReg::new(number).into()
}

/// A patch of moves: source, destination and value.
fn patch(moves: &[(usize, usize, usize)]) -> Patch {
    let mut patch = Patch::new();
    for &(source, dest, value) in moves {
        patch.add_move(reg(source), reg(dest), Value::new(value));
    }
    patch
}

fn edit((source, dest, value): (usize, usize, usize)) -> Edit {
    Edit::Move {
        to: reg(dest),
        from: reg(source),
        value: Value::new(value),
    }
}

/// r6 to r7, and r0, a half of r6, to r4.
const PAIR: (usize, usize, usize) = (6, 7, 2);
const HALF: (usize, usize, usize) = (0, 4, 0);

#[test]
fn whole_jobs() {
    let mut resolver = Resolver::new();
    let mut refused = 0;
    for (name, job) in jobs("compare/trials") {
        if !name.starts_with("sources-") {
            continue;
        }
        assert_eq!(text(&mut resolver, 1, &job), printed(&name), "{name}");
        let refusal = resolver
            .answer(1, &job)
            .err()
            .map(|answer| answer.refusal());
        refused += usize::from(refusal == Some(Refusal::OverlappingSources));
    }
    assert!(refused >= 5, "{refused}");
}

#[test]
fn patch_by_patch() {
    let mut moves = ParallelMoves::open(1, &opening()).unwrap();
    let overlapping = Some(Refusal::OverlappingSources);
    // What one patch reads says nothing of the next, nor does a refused one.
    for one in [PAIR, HALF, PAIR] {
        let edits: Vec<Edit> = moves.resolve(&patch(&[one])).unwrap().iter().collect();
        assert_eq!(edits, [edit(one)]);
        for both in [[PAIR, HALF], [HALF, PAIR]] {
            assert_eq!(moves.resolve(&patch(&both)).err(), overlapping);
            assert_eq!(moves.made(), 0);
        }
    }
    // With another move between them.
    let other = (4, 5, 0);
    let half = (1, 3, 1);
    assert_eq!(
        moves.resolve(&patch(&[(6, 8, 2), (2, 0, 0), half])).err(),
        overlapping
    );
    // Equal sources pass, and so do a half and another pair.
    assert!(moves.resolve(&patch(&[(0, 2, 0), (0, 3, 1)])).is_ok());
    assert!(moves.resolve(&patch(&[PAIR, other])).is_ok());
}
