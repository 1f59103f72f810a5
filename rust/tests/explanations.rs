//! Why a patch is refused: which entry or free unit it is, and what is wrong with it. And what
//! else an opened function tells: how large its emergency slots are, and what overlaps.

mod common;

use std::collections::BTreeMap;
use std::fs;
use std::str::SplitWhitespace;

use common::root;
use parallel_moves::{
    Allocation, AllocationKind, Class, Edit, JobBuilder, ParallelMoves, Patch, PatchPart, PhysReg,
    Refusal, RegBank, RegClass, RegUnit, RematCost, SpillSlot, TargetBuilder, Value,
};

/// s0 to s31 are registers 0 to 31, d0 is 32, d1 is 33.
fn vfp() -> JobBuilder {
    JobBuilder::on(TargetBuilder::named("vfp").unwrap())
}

fn reg(number: usize) -> PhysReg {
    PhysReg::new(number)
}

/// A function with two ordinary slots, a value of each of the first two banks, and one of the
/// first that is rebuilt by a class of s0 and s1.
fn function() -> (JobBuilder, [Value; 3]) {
    let mut job = vfp();
    let target = job.target();
    let few = Class::of(&[reg(0), reg(1)]).of_bank(RegBank::new(0));
    let few = target.class(few);
    let function = job.function();
    let values = [
        function.value(RegBank::new(0)),
        function.value(RegBank::new(1)),
        function.remat_value(RegBank::new(0), RematCost::CheaperThanLoad, few),
    ];
    function.slots(2).emergency_slots(0);
    (job, values)
}

/// What is said of a patch that is refused.
fn said(patch: &Patch) -> String {
    let (mut job, _) = function();
    let mut moves = ParallelMoves::open(1, &job.target_and_function().unwrap()).unwrap();
    let refusal = moves.resolve(patch).unwrap_err();
    let explanation = moves.explain(patch, refusal);
    assert_eq!(explanation.refusal(), refusal);
    assert_eq!(Refusal::from(explanation.clone()), refusal);
    // As a job it is told alike, but for 17, which is a matter of resolving.
    job.add_patch(patch.clone());
    if let Err(error) = job.bytes() {
        let why = job.why(error.part(), error.refusal());
        assert_eq!(why.as_deref(), Some(explanation.why()));
    }
    explanation.to_string()
}

/// What is put into a patch, and what is said of it.
type Case<'a> = (&'a dyn Fn(&mut Patch), &'a str);

#[test]
fn each_refusal() {
    let (_, [single, pair, rebuilt]) = function();
    let slot = SpillSlot::new;
    let cases: [Case<'_>; 16] = [
        (
            &|p| _ = p.move_(reg(0), reg(56), single),
            "entry 1: refused 2: r56 is none of the target's 56 registers",
        ),
        (
            &|p| _ = p.move_(slot(2), reg(0), single),
            "entry 1: refused 2: s2 is no ordinary slot: N is 2",
        ),
        (
            &|p| _ = p.remat(reg(0), rebuilt).remat(reg(1), Value::new(3)),
            "entry 2: refused 2: value 3 is none of the function's 3 values",
        ),
        (
            &|p| _ = p.free(&[31, 32]),
            "free unit 32: refused 2: it is none of the target's 32 units",
        ),
        (
            &|p| {
                for unit in [4, 3, 4] {
                    p.add_free_unit(RegUnit::new(unit));
                }
            },
            "free unit 4: refused 3: unit 4 is listed twice",
        ),
        (
            &|p| p.set_free_units([4, 3].map(RegUnit::new)),
            "free unit 3: refused 3: unit 3 is listed behind a greater one",
        ),
        (
            &|p| _ = p.move_(slot(0), reg(32), single),
            "entry 1: refused 9: r32 is of bank 1, and value 0 of bank 0",
        ),
        (
            &|p| _ = p.move_(slot(1), slot(1), single),
            "entry 1: refused 10: s1 is both source and destination",
        ),
        (
            &|p| _ = p.remat(reg(3), single),
            "entry 1: refused 11: value 0 cannot be rebuilt",
        ),
        (
            &|p| {
                _ = p
                    .move_(reg(4), reg(0), single)
                    .move_(reg(34), reg(32), pair)
            },
            "entry 2: refused 12: r32 shares unit 0 with r0, the destination of entry 1",
        ),
        (
            &|p| {
                _ = p
                    .move_(reg(4), slot(0), single)
                    .move_(reg(5), slot(0), single)
            },
            "entry 2: refused 12: s0 is the destination of entry 1",
        ),
        (
            &|p| {
                _ = p
                    .move_(reg(4), reg(6), single)
                    .move_(reg(37), reg(32), pair)
                    .free(&[1, 9])
            },
            "free unit 1: refused 13: r32, the destination of entry 2, has it",
        ),
        (
            &|p| _ = p.remat(reg(32), rebuilt),
            "entry 1: refused 9: r32 is of bank 1, and value 2 of bank 0",
        ),
        (
            &|p| {
                for _ in 0..130 {
                    p.move_(reg(0), reg(1), single);
                }
            },
            "entry 129: refused 15: the patch has 130 entries, and 128 are the most",
        ),
        (
            &|p| {
                _ = p
                    .move_(reg(0), reg(1), single)
                    .move_(reg(1), reg(0), single)
            },
            "the patch: refused 17: L is 0, and the function has 0 before the patch; 258 are enough",
        ),
        (
            // The first source is memory, so that it is not read.
            &|p| {
                p.move_(slot(0), reg(8), rebuilt)
                    .move_(reg(32), reg(33), pair);
                p.move_(reg(1), reg(9), single);
            },
            "entry 3: refused 21: r1 shares unit 1 with r32, the source of entry 2",
        ),
    ];
    for (change, expected) in cases {
        let mut patch = Patch::new();
        change(&mut patch);
        assert_eq!(said(&patch), expected);
    }
}

/// 14: three registers, and a value that is rebuilt in r2 alone, or else through it.
#[test]
fn evicted_destination() {
    let mut job = JobBuilder::new();
    let target = job.target();
    let bank = target.bank(3);
    let pairs = [[0, 1], [2, 3], [1, 2]].map(|units| target.register(&units));
    let top = target.class(Class::of(&pairs).with_slots());
    let stack = target.class(Class::of(&pairs));
    let one = target.class(Class::of(&pairs[2..]));
    target.top_level_class(bank, top).stack_class(bank, stack);
    let value = job
        .function()
        .remat_value(bank, RematCost::CheaperThanLoad, one);
    let mut moves = ParallelMoves::open(1, &job.target_and_function().unwrap()).unwrap();
    let mut patch = Patch::new();
    patch.remat(pairs[1], value);
    let refusal = moves.resolve(&patch).unwrap_err();
    assert_eq!(
        moves.explain(&patch, refusal).to_string(),
        "entry 1: refused 14: value 0 needs a scratch of class 2, whose order ends in r2, and r2 \
         shares unit 2 with r1, the destination"
    );
    assert!(moves.overlap(pairs[0], pairs[2]) && moves.overlap(pairs[2], pairs[0]));
    assert!(!moves.overlap(pairs[0], pairs[1]));
    assert!(moves.overlap(SpillSlot::new(7), SpillSlot::new(7)));
    assert!(!moves.overlap(SpillSlot::new(0), pairs[0]));
    assert_eq!(
        moves.target_and_function(),
        job.target_and_function().unwrap()
    );
}

#[test]
fn list_too_short() {
    let (job, [single, _, _]) = function();
    let mut moves = ParallelMoves::open(1, &job.target_and_function().unwrap()).unwrap();
    let mut patch = Patch::new();
    patch
        .move_(reg(0), reg(1), single)
        .move_(reg(1), reg(2), single);
    let refusal = moves.resolve_into(&patch, &mut [0; 3]).unwrap_err();
    assert_eq!(
        moves.explain(&patch, refusal).to_string(),
        "the patch: refused 16: 8 words for each of its 2 entries, 16, are enough"
    );
    // Of what is not refused so nothing more is told than its words.
    let other = moves.explain(&patch, Refusal::WrittenTwice);
    assert_eq!(
        (other.part(), other.why()),
        (PatchPart::Patch, Refusal::WrittenTwice.words())
    );
}

/// What is outside a limit in a target or a function.
#[test]
fn limits() {
    let check = |change: &dyn Fn(&mut JobBuilder), expected: &str| {
        let (mut job, _) = function();
        job.patch();
        change(&mut job);
        let error = job.bytes().unwrap_err();
        let why = job.why(error.part(), error.refusal());
        let said = format!("{}: {}", error.part(), why.unwrap_or_default());
        assert_eq!(said, expected);
    };
    check(
        &|job| _ = job.target().units(513),
        "the number of units: 513 units: 1 to 512 are allowed",
    );
    check(
        &|job| _ = job.function().slots(4097),
        "the number of slots: 4097 slots: 0 to 4096 are allowed",
    );
    check(
        &|job| _ = job.function().emergency_slots(2049),
        "the number of emergency slots: 2049 emergency slots: 0 to 2048 are allowed",
    );
    check(
        &|job| _ = job.target().bank(3),
        "bank 3: it has no top-level class",
    );
    check(
        &|job| _ = job.target().register(&[0, 1, 2, 3, 4, 5, 6, 7, 8]),
        "register 56: 9 units: 1 to 8 are allowed",
    );
    check(
        &|job| _ = job.target().register(&[3, 7, 3]),
        "register 56: unit 3 is listed twice",
    );
    check(
        &|job| _ = job.target().class(Class::of(&[reg(0), reg(99)])),
        "class 7: r99 is none of the target's 56 registers",
    );
    check(
        &|job| _ = job.function().value(RegBank::new(3)),
        "value 3: bank 3 is none of the target's 3 banks",
    );
    check(
        &|job| {
            let (bank, class) = (RegBank::new(1), RegClass::new(0));
            let function = job.function();
            function.remat_value(bank, RematCost::CheaperThanMove, class);
        },
        "value 3: class 0 is of bank 0, and the value of bank 1",
    );
}

/// The recorded calls (`tests/calls.txt`, by `compare/calls-data`).
fn recorded() -> String {
    fs::read_to_string(root().join("rust/tests/calls.txt")).unwrap()
}

fn list(words: &mut SplitWhitespace<'_>) -> Vec<u64> {
    let mut next = || words.next().unwrap().parse().unwrap();
    (0..next()).map(|_| next()).collect()
}

/// The patch of a recorded call; none, if its numbers are no entries.
fn patch_of(free: &[u64], numbers: &[u64]) -> Option<Patch> {
    let index = |number: u64| number as usize;
    let place = |code: u64| match code % 2 {
        0 => Allocation::spillslot(SpillSlot::new(index(code / 2))),
        _ => Allocation::reg(reg(index(code / 2))),
    };
    // No unit has a greater index.
    let most = (1 << 31) - 1;
    let mut patch = Patch::new();
    patch.set_free_units(free.iter().map(|&unit| RegUnit::new(index(unit.min(most)))));
    for entry in numbers.chunks(4) {
        match *entry {
            [0, source, dest, value] if value <= most => {
                patch.add_move(place(source), place(dest), Value::new(index(value)));
            }
            [1, dest, value, 0] if value <= most => {
                patch.add_remat(place(dest), Value::new(index(value)));
            }
            _ => return None,
        }
    }
    Some(patch)
}

/// Gives each recorded patch with the function that it is of.
fn each_call(mut take: impl FnMut(&mut ParallelMoves, &Patch)) {
    let mut moves = None;
    for line in recorded().lines() {
        let mut words = line.split_whitespace();
        let kind = words.next().unwrap();
        let numbers: Vec<u64> = (0..if kind == "open" { 3 } else { 4 })
            .map(|_| words.next().unwrap().parse().unwrap())
            .collect();
        if kind == "open" {
            let bytes: Vec<u8> = list(&mut words).iter().map(|&byte| byte as u8).collect();
            moves = ParallelMoves::open(numbers[2] as u32, &bytes).ok();
        } else if let Some(patch) = patch_of(&list(&mut words), &list(&mut words)) {
            take(moves.as_mut().unwrap(), &patch);
        }
    }
}

/// The first entries of a patch.
fn beginning(patch: &Patch, count: usize) -> Patch {
    let mut first = Patch::new();
    first.set_free_units(patch.free_units().iter().copied());
    first.extend(patch.entries().take(count));
    first
}

/// The entry that is told is the one: the patch up to it is refused so, and before it not, by
/// a number of its entries. What is told is more than the refusal's own words.
#[test]
fn recorded_calls() {
    let mut told: BTreeMap<u8, usize> = BTreeMap::new();
    each_call(|moves, patch| {
        let Err(refusal) = moves.resolve(patch) else {
            return;
        };
        let explanation = moves.explain(patch, refusal);
        *told.entry(refusal.number()).or_default() += 1;
        assert_ne!(explanation.why(), refusal.words(), "{explanation}");
        let number = refusal.number();
        match explanation.part() {
            PatchPart::Entry(entry) if number != 14 => {
                let up_to = moves.resolve(&beginning(patch, entry)).unwrap_err();
                assert_eq!(up_to, refusal, "{explanation}");
                let before = moves.resolve(&beginning(patch, entry - 1)).err();
                assert!(before.is_none_or(|b| matches!(b.number(), 13 | 14 | 17)));
            }
            PatchPart::Entry(_) => assert_eq!(number, 14),
            PatchPart::FreeUnit(unit) => {
                assert!(matches!(number, 2 | 3 | 13));
                assert!(patch.free_units().contains(&unit));
            }
            _ => assert!(matches!(number, 16 | 17), "{explanation}"),
        }
    });
    for number in [2, 3, 9, 10, 11, 12, 13, 14, 15, 17, 21] {
        assert!(told.contains_key(&number), "no {number} among {told:?}");
    }
}

/// The banks of registers and values, and the sizes of banks: told by the job.
struct Sizes {
    of_registers: Vec<u32>,
    of_values: Vec<u32>,
    slots: usize,
}

fn sizes(moves: &ParallelMoves) -> Sizes {
    let mut job = moves.target_and_function().to_vec();
    job.extend([1, 0, 0]);
    let text = parallel_moves::text::from_bytes(&job).unwrap();
    // The shipped target is printed by its name: no recorded function is on it.
    let mut sizes: Vec<u32> = Vec::new();
    let (mut of_registers, mut of_values, mut slots) = (Vec::new(), Vec::new(), 0);
    for line in text.lines() {
        let words: Vec<&str> = line.split_whitespace().collect();
        let bank = |word: &str| word.strip_prefix('b').unwrap().parse::<usize>().unwrap();
        match words[..] {
            ["bank", _, "slots", size, ..] => {
                sizes.push(size.strip_prefix("2^").unwrap().parse().unwrap());
            }
            ["register", _, "bank", of, ..] => of_registers.push(sizes[bank(of)]),
            ["value", _, "bank", of, ..] => of_values.push(sizes[bank(of)]),
            ["slots", count] => slots = count.parse().unwrap(),
            _ => (),
        }
    }
    Sizes {
        of_registers,
        of_values,
        slots,
    }
}

/// Every emergency slot that was made has the size of the bank of each edit that names it: of
/// M and R the value's, of S and L the register's. No other slot has one.
#[test]
fn slot_sizes() {
    let (mut named, mut different) = (0, Vec::new());
    each_call(|moves, patch| {
        let Ok(edits) = moves.resolve(patch) else {
            return;
        };
        let edits: Vec<Edit> = edits.iter().collect();
        let text = moves.target_and_function();
        if text.first() == Some(&32) && text.get(1) == Some(&3) {
            return;
        }
        let sizes = sizes(moves);
        let mut check = |slot: SpillSlot, size: u32| {
            if slot.index() >= sizes.slots {
                assert_eq!(moves.slot_size(slot), Some(size));
                named += 1;
                if !different.contains(&size) {
                    different.push(size);
                }
            }
        };
        for edit in edits {
            let of_value = |value: Value| sizes.of_values[value.index()];
            let of_register = |register: PhysReg| sizes.of_registers[register.index()];
            let mut place = |place: Allocation, value: Value| {
                if let AllocationKind::SpillSlot(slot) = place.kind() {
                    check(slot, of_value(value));
                }
            };
            match edit {
                Edit::Move { to, from, value } => {
                    place(to, value);
                    place(from, value);
                }
                Edit::Rematerialize { to, value } => place(to, value),
                Edit::EmergencySpill { to, from } => check(to, of_register(from)),
                Edit::EmergencyReload { to, from } => check(from, of_register(to)),
            }
        }
        let (first, made) = (sizes.slots, moves.made());
        let size = |slot| moves.slot_size(SpillSlot::new(slot));
        assert!((0..first).all(|slot| size(slot).is_none()));
        assert!((first..first + made).all(|slot| size(slot).is_some()));
        assert!((first + made..first + made + 9).all(|slot| size(slot).is_none()));
        assert_eq!(size(65_536), None);
    });
    assert!(named > 200 && different.len() > 3, "{named} {different:?}");
}
