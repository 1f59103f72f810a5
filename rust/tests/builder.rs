//! Jobs built in the words of the trade: what they come to, and where they are refused.

mod common;

use common::{jobs, numbers};
use parallel_moves::{
    Allocation, Class, JobBuilder, ParallelMoves, Part, Patch, PhysReg, Refusal, RegBank, RegClass,
    RegUnit, RematCost, Resolver, SpillSlot, Value,
};

/// Swap-full's target: three registers of one unit each, and its function.
struct Three {
    job: JobBuilder,
    bank: RegBank,
    registers: [PhysReg; 3],
    stack: RegClass,
    values: [Value; 2],
}

fn three() -> Three {
    let mut job = JobBuilder::new();
    let target = job.target();
    let bank = target.bank(3);
    let registers = [0, 1, 2].map(|unit| target.register(&[unit]));
    let top = target.class(Class::of(&registers).with_slots());
    let stack = target.class(Class::of(&registers));
    target.top_level_class(bank, top).stack_class(bank, stack);
    let function = job.function();
    let values = [(); 2].map(|()| function.value(bank));
    function.emergency_slots(1);
    Three {
        job,
        bank,
        registers,
        stack,
        values,
    }
}

/// For steps that give something to go on with.
fn done<T>(_: T) {}

/// Where a job is refused, and by which number.
fn refused(job: &JobBuilder) -> (Part, u8) {
    let error = job.bytes().unwrap_err();
    let (part, refusal) = (error.part(), error.refusal());
    assert_eq!(error.to_string(), format!("{part}: {refusal}"));
    assert_eq!(Refusal::from(error), refusal);
    (part, refusal.number())
}

#[test]
fn swap_full() {
    let Three {
        mut job,
        registers: [r0, r1, _],
        values: [v0, v1],
        ..
    } = three();
    let opening = job.target_and_function().unwrap();
    job.patch().move_(r0, r1, v0).move_(r1, r0, v1);
    let bytes = job.bytes().unwrap();
    let (_, example) = jobs("examples")
        .into_iter()
        .find(|(name, _)| name == "swap-full")
        .unwrap();
    assert_eq!(bytes, example);
    assert_eq!(bytes[..46], opening);
    assert_eq!(job.target_and_function().unwrap(), opening);
    assert!(
        job.numbers()
            .into_iter()
            .eq(bytes.iter().map(|&byte| byte.into()))
    );
    assert_eq!(job.patches(), 1);
    assert!(ParallelMoves::open(1, &opening).is_ok());
}

/// Two banks, memory registers, values that are rebuilt, slots and free units.
#[test]
fn each_word() {
    let mut job = JobBuilder::new();
    let target = job.target();
    let single = target.bank(2);
    let [r0, r1] = [0, 1].map(|unit| target.register(&[unit]));
    let word = target.memory_register(4);
    let pairs = target.bank(3);
    let pair = target.register(&[0, 1]);
    let r4 = target.of_bank(single).register(&[2]);
    let all = Class::of(&[r0, r1, word, r4]).in_order(&[r4, r1, r0]);
    let top = target.class(all.clone().with_slots());
    let stack = target.class(all);
    let top_of_pairs = target.class(Class::of(&[pair]).with_slots().of_bank(pairs));
    let stack_of_pairs = target.of_bank(pairs).class(Class::of(&[pair]));
    target
        .top_level_class(single, top)
        .stack_class(single, stack);
    target.top_level_class(pairs, top_of_pairs);
    target.stack_class(pairs, stack_of_pairs);
    target.units(6);

    let function = job.function();
    let slots = [function.slot(), function.slot()];
    let v0 = function.value(single);
    let v1 = function.remat_value(single, RematCost::CheaperThanMove, stack);
    let v2 = function.remat_value(pairs, RematCost::CheaperThanLoad, top_of_pairs);
    let patch = job.patch();
    patch.free(&[3, 2, 3]).move_(slots[0], r0, v0);
    patch.remat(r1, v1).remat(slots[1], v2);
    let mut other = Patch::new();
    other.move_(word, r4, v0).move_(pair, SpillSlot::new(1), v2);
    job.add_patch(other);
    let expected = "6 2 2 0 1 3 2 3 5 0 0 1 0 0 0 1 1 1 0 1 4 0 1 2 0 1 0 0 1 2 \
         4 0 1 4 0 1 2 4 3 4 1 0 0 0 4 0 1 2 4 3 4 1 0 1 1 1 3 1 3 1 0 1 3 1 3 \
         3 2 2048 0 0 0 1 1 1 2 2 2 2 2 3 3 0 0 1 0 1 3 1 1 2 2 \
         0 2 0 5 9 0 0 7 2 2";
    assert_eq!(job.numbers(), numbers(expected));
    let answer = Resolver::new().answer(1, &job.bytes().unwrap()).unwrap();
    assert_eq!(answer.patches().count(), 2);
    assert_eq!(
        JobBuilder::from_bytes(&job.bytes().unwrap())
            .unwrap()
            .numbers(),
        job.numbers()
    );
}

/// Unless it is said, 2,048 slots may be made, and the units are those that are named.
#[test]
fn what_is_not_said() {
    let Three {
        mut job,
        registers: [r0, r1, _],
        values: [v0, v1],
        ..
    } = three();
    job.patch().move_(r0, r1, v0).move_(r1, r0, v1);
    assert_eq!(job.numbers()[0], 3);
    job.target().register(&[9]);
    assert_eq!(job.numbers()[0], 10);
    job.target().units(12);
    assert_eq!(job.numbers()[0], 12);
    assert_eq!(JobBuilder::new().function().slot(), SpillSlot::new(0));
    assert_eq!(JobBuilder::new().numbers(), [0, 0, 0, 0, 0, 0, 2048, 0]);
    assert_eq!(refused(&JobBuilder::new()), (Part::Units, 2));
}

#[test]
fn targets_are_refused_where_they_are_wrong() {
    let check = |change: &dyn Fn(&mut Three), part: Part, number: u8| {
        let mut three = three();
        three.job.patch();
        assert!(three.job.bytes().is_ok());
        change(&mut three);
        assert_eq!(refused(&three.job), (part, number));
        let opening = three.job.target_and_function().unwrap_err();
        assert_eq!((opening.part(), opening.refusal().number()), (part, number));
    };
    let register = |index| Part::Register(PhysReg::new(index));
    let class = |index| Part::Class(RegClass::new(index));
    let bank = |index| Part::Bank(RegBank::new(index));
    let units = |job: &mut Three, units: &[u32]| {
        job.job.target().register(units);
    };
    // As they are read.
    check(&|t| done(t.job.target().units(513)), Part::Units, 2);
    check(&|t| done(t.job.target().units(2)), register(2), 2);
    check(&|t| units(t, &[]), register(3), 2);
    check(&|t| units(t, &[1, 1]), register(3), 3);
    check(
        &|t| (0..8).for_each(|_| done(t.job.target().bank(3))),
        Part::Banks,
        2,
    );
    check(&|t| done(t.job.target().bank(32)), bank(1), 2);
    check(&|t| done(t.job.target().bank(31)), bank(1), 2);
    check(
        &|t| (0..510).for_each(|_| units(t, &[0])),
        Part::Registers,
        2,
    );
    check(
        &|t| (0..63).for_each(|_| done(t.job.target().class(Class::of(&[])))),
        Part::Classes,
        2,
    );
    check(
        &|t| done(t.job.target().top_level_class(t.bank, RegClass::new(2))),
        bank(0),
        2,
    );
    check(
        &|t| done(t.job.target().of_bank(RegBank::new(7)).register(&[0])),
        register(3),
        2,
    );
    let [r0, r1] = [0, 1].map(PhysReg::new);
    let r9 = PhysReg::new(9);
    check(
        &|t| done(t.job.target().class(Class::of(&[r0, r9]))),
        class(2),
        2,
    );
    check(
        &|t| done(t.job.target().class(Class::of(&[r0, r1, r0]))),
        class(2),
        3,
    );
    check(
        &|t| {
            done(
                t.job
                    .target()
                    .class(Class::of(&[r0, r1]).in_order(&[r1, r1])),
            )
        },
        class(2),
        3,
    );
    // Of the whole target.
    check(&|t| units(t, &[0, 1]), register(3), 4);
    check(
        &|t| done(t.job.target().class(Class::of(&[r0]).in_order(&[r1]))),
        class(2),
        5,
    );
    check(&|t| done(t.job.target().memory_register(1)), register(3), 6);
    check(&|t| done(t.job.target().class(Class::of(&[]))), class(2), 7);
    check(
        &|t| done(t.job.target().top_level_class(t.bank, t.stack)),
        class(1),
        7,
    );
    check(
        &|t| done(t.job.target().stack_class(t.bank, RegClass::new(0))),
        class(0),
        7,
    );
    // A bank with another's class; a class with another's register; a stack class that
    // ends in memory.
    let second_bank = |t: &mut Three| {
        let target = t.job.target();
        let second = target.bank(3);
        let r3 = target.register(&[0]);
        let top = target.class(Class::of(&[r3]).with_slots());
        let stack = target.class(Class::of(&[r3]));
        target
            .top_level_class(second, top)
            .stack_class(second, stack);
        (second, r3)
    };
    check(
        &|t| {
            let (second, _) = second_bank(t);
            t.job.target().stack_class(second, t.stack);
        },
        bank(1),
        5,
    );
    check(
        &|t| {
            let (_, r3) = second_bank(t);
            t.job.target().of_bank(t.bank).class(Class::of(&[r0, r3]));
        },
        class(4),
        5,
    );
    check(
        &|t| {
            let word = t.job.target().memory_register(4);
            t.job.target().class(Class::of(&[r0, word]));
        },
        class(2),
        7,
    );
}

#[test]
fn functions_are_refused_where_they_are_wrong() {
    let check = |change: &dyn Fn(&mut Three), part: Part, number: u8| {
        let mut three = three();
        three.job.patch();
        change(&mut three);
        assert_eq!(refused(&three.job), (part, number));
    };
    let value = |index| Part::Value(Value::new(index));
    check(&|t| done(t.job.function().slots(4097)), Part::Slots, 2);
    check(
        &|t| done(t.job.function().emergency_slots(2049)),
        Part::EmergencySlots,
        2,
    );
    check(
        &|t| (0..4095).for_each(|_| done(t.job.function().value(t.bank))),
        Part::Values,
        2,
    );
    check(
        &|t| done(t.job.function().value(RegBank::new(1))),
        value(2),
        2,
    );
    let remat = |t: &mut Three, class| {
        let cost = RematCost::CheaperThanLoad;
        t.job
            .function()
            .remat_value(t.bank, cost, RegClass::new(class));
    };
    check(&|t| remat(t, 2), value(2), 2);
    check(
        &|t| {
            let second = t.job.target().bank(3);
            let r3 = t.job.target().register(&[0]);
            let top = t.job.target().class(Class::of(&[r3]).with_slots());
            let stack = t.job.target().class(Class::of(&[r3]));
            t.job
                .target()
                .top_level_class(second, top)
                .stack_class(second, stack);
            remat(t, 1);
            remat(t, 3);
        },
        value(3),
        9,
    );
}

#[test]
fn patches_are_refused_where_they_are_wrong() {
    type Change<'a> = &'a dyn Fn(&mut Patch, [PhysReg; 3], [Value; 2]);
    let check = |change: Change<'_>, part: Part, number: u8| {
        let Three {
            mut job,
            registers,
            values,
            ..
        } = three();
        job.patch().move_(registers[0], registers[1], values[0]);
        change(job.patch(), registers, values);
        job.patch();
        assert_eq!(refused(&job), (part, number));
    };
    let entry = |number| Part::Entry(2, number);
    let free = |unit| Part::FreeUnit(2, RegUnit::new(unit));
    check(&|p, _, _| done(p.free(&[2, 3])), free(3), 2);
    check(
        &|p, _, _| p.set_free_units([2, 1].map(RegUnit::new)),
        free(1),
        3,
    );
    check(
        &|p, [r0, ..], [v0, _]| done(p.move_(r0, SpillSlot::new(0), v0)),
        entry(1),
        2,
    );
    check(
        &|p, [r0, r1, r2], [v0, v1]| {
            p.move_(r1, r2, v1)
                .move_(r2, PhysReg::new(3), v0)
                .move_(r0, r0, v0);
        },
        entry(2),
        2,
    );
    check(
        &|p, [r0, r1, _], _| done(p.move_(r0, r1, Value::new(2))),
        entry(1),
        2,
    );
    check(
        &|p, [r0, r1, _], [v0, v1]| done(p.move_(r0, r1, v0).move_(r1, r1, v1)),
        entry(2),
        10,
    );
    check(&|p, [r0, ..], [v0, _]| done(p.remat(r0, v0)), entry(1), 11);
    check(
        &|p, [r0, r1, r2], [v0, v1]| {
            p.move_(r0, r1, v0).move_(r1, r0, v1).move_(r2, r1, v1);
        },
        entry(3),
        12,
    );
    check(
        &|p, [r0, r1, r2], [v0, v1]| {
            p.free(&[0, 2]).move_(r0, r1, v0).move_(r1, r2, v1);
        },
        free(2),
        13,
    );
    check(
        &|p, [r0, r1, _], [v0, _]| (0..130).for_each(|_| done(p.move_(r0, r1, v0))),
        entry(129),
        15,
    );
}

/// 9 of an entry, 14 and 21 need other targets.
#[test]
fn entries_over_pairs() {
    let mut job = JobBuilder::new();
    let target = job.target();
    let single = target.bank(2);
    let [r0, r1, r2] = [0, 1, 2].map(|unit| target.register(&[unit]));
    let pairs = target.bank(3);
    let [low, high] = [[0, 1], [2, 3]].map(|units| target.register(&units));
    target.of_bank(single);
    let top = target.class(Class::of(&[r0, r1, r2]).with_slots());
    let stack = target.class(Class::of(&[r0, r1, r2]));
    let evicting = target.class(Class::of(&[r0]));
    target.of_bank(pairs);
    let top_of_pairs = target.class(Class::of(&[low, high]).with_slots());
    let stack_of_pairs = target.class(Class::of(&[high, low]));
    target
        .top_level_class(single, top)
        .stack_class(single, stack);
    target
        .top_level_class(pairs, top_of_pairs)
        .stack_class(pairs, stack_of_pairs);
    let function = job.function();
    let v0 = function.value(single);
    let v1 = function.value(pairs);
    let v2 = function.remat_value(single, RematCost::CheaperThanLoad, evicting);
    let slot = function.slot();
    let pair: Allocation = low.into();

    let with = |entries: &dyn Fn(&mut Patch)| {
        let mut job = job.clone();
        entries(job.patch());
        job
    };
    assert!(with(&|p| done(p.move_(pair, high, v1))).bytes().is_ok());
    let foreign = with(&|p| done(p.move_(r0, slot, v0).move_(slot, pair, v0)));
    assert_eq!(refused(&foreign), (Part::Entry(1, 2), 9));
    let sources = with(&|p| done(p.move_(pair, high, v1).move_(r0, slot, v0)));
    assert_eq!(refused(&sources), (Part::Entry(1, 2), 21));
    // v2 is rebuilt in r0 and copied to r1 and r2. Into another register on r0's unit it
    // cannot go so.
    let fine = with(&|p| done(p.remat(r1, v2).remat(r2, v2)));
    assert!(fine.bytes().is_ok());
    let mut evicted = job.clone();
    let same_unit = evicted.target().of_bank(single).register(&[0]);
    evicted.patch().remat(r1, v2).remat(same_unit, v2);
    assert_eq!(refused(&evicted), (Part::Entry(1, 2), 14));
}

/// Jobs that are too long or have too many patches.
#[test]
fn whole_jobs() {
    let Three {
        mut job,
        registers: [r0, r1, _],
        values: [v0, _],
        ..
    } = three();
    assert_eq!(refused(&job), (Part::Patches, 2));
    for _ in 0..1025 {
        job.patch();
    }
    assert_eq!(refused(&job), (Part::Patches, 2));
    let mut job = three().job;
    for _ in 0..128 {
        let patch = job.patch();
        (0..128).for_each(|_| done(patch.move_(r0, r1, v0)));
    }
    assert_eq!(refused(&job), (Part::Job, 2));
    assert_eq!(
        job.bytes().unwrap_err().to_string(),
        format!("the job: {}", Refusal::NamesNothing)
    );
}

#[test]
fn parts_have_words() {
    let words: Vec<String> = [
        Part::Job,
        Part::Units,
        Part::Banks,
        Part::Bank(RegBank::new(1)),
        Part::Registers,
        Part::Register(PhysReg::new(2)),
        Part::Classes,
        Part::Class(RegClass::new(3)),
        Part::Values,
        Part::Slots,
        Part::EmergencySlots,
        Part::Value(Value::new(4)),
        Part::Patches,
        Part::Patch(5),
        Part::FreeUnit(6, RegUnit::new(7)),
        Part::Entry(8, 9),
    ]
    .map(|part| part.to_string())
    .into();
    assert_eq!(words[3], "bank 1");
    assert_eq!(words[14], "patch 6, free unit 7");
    assert_eq!(words[15], "patch 8, entry 9");
    for (index, word) in words.iter().enumerate() {
        assert!(!words[..index].contains(word));
    }
}
