//! Patches looked at: their entries and free units, in the order in which they are given.

use parallel_moves::{
    Allocation, Entry, JobBuilder, ParallelMoves, Patch, PhysReg, Refusal, RegBank, RegUnit,
    SpillSlot, TargetBuilder, Value,
};

fn reg(number: usize) -> Allocation {
    PhysReg::new(number).into()
}

fn slot(number: usize) -> Allocation {
    SpillSlot::new(number).into()
}

fn entries() -> [Entry; 3] {
    [
        Entry::Move {
            source: reg(511),
            dest: slot(4095),
            value: Value::new(7),
        },
        Entry::Remat {
            dest: reg(0),
            value: Value::new(4095),
        },
        Entry::Move {
            source: slot(0),
            dest: reg(3),
            value: Value::new(0),
        },
    ]
}

#[test]
fn entries_are_given_back() {
    let mut patch = Patch::new();
    patch.add_move(reg(511), slot(4095), Value::new(7));
    patch.remat(PhysReg::new(0), Value::new(4095));
    patch.move_(SpillSlot::new(0), PhysReg::new(3), Value::new(0));
    assert!(patch.entries().eq(entries()));
    assert!(patch.into_iter().rev().eq(entries().into_iter().rev()));
    assert_eq!(patch.entries().len(), patch.len());
    let mut copy = Patch::new();
    copy.extend(&patch);
    assert_eq!(copy, patch);
    let texts: Vec<String> = patch.into_iter().map(|entry| entry.to_string()).collect();
    assert_eq!(
        texts,
        [
            "move v7 from r511 to s4095",
            "rebuild v4095 in r0",
            "move v0 from s0 to r3"
        ]
    );
    for entry in entries() {
        let mut one = Patch::new();
        one.add_entry(entry);
        let given = one.entries().next().unwrap();
        assert_eq!(given, entry);
        let parts = (given.source(), given.dest(), given.value());
        let expected = match entry {
            Entry::Move {
                source,
                dest,
                value,
            } => (Some(source), dest, value),
            Entry::Remat { dest, value } => (None, dest, value),
        };
        assert_eq!(parts, expected);
    }
}

/// Free units in any order give the same patch; one that is given twice is refused.
#[test]
fn free_units_in_any_order() {
    let mut job = JobBuilder::on(TargetBuilder::named("vfp").unwrap());
    let [v0, v1] = [(); 2].map(|()| job.function().value(RegBank::new(0)));
    let mut moves = ParallelMoves::open(1, &job.target_and_function().unwrap()).unwrap();
    let [s0, s1] = [0, 1].map(PhysReg::new);
    let rising = [2, 3, 4, 9].map(RegUnit::new);
    let orders = [
        [2, 3, 4, 9],
        [9, 4, 3, 2],
        [4, 2, 9, 3],
        [3, 9, 2, 4],
        [2, 9, 3, 4],
    ];
    for order in orders {
        let mut patch = Patch::new();
        for unit in order {
            patch.add_free_unit(RegUnit::new(unit));
        }
        patch.move_(s0, s1, v0).move_(s1, s0, v1);
        assert_eq!(patch.free_units(), rising);
        assert_eq!(moves.resolve(&patch).unwrap().len(), 3);
        for again in order {
            let mut twice = patch.clone();
            twice.add_free_unit(RegUnit::new(again));
            assert_eq!(moves.resolve(&twice), Err(Refusal::ListedTwice));
        }
    }
    // What is set stays as it is listed.
    let mut patch = Patch::new();
    patch.set_free_units([3, 2].map(RegUnit::new));
    assert_eq!(moves.resolve(&patch), Err(Refusal::ListedTwice));
}
