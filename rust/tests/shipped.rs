//! The shipped target by its name, which the library writes, held against document 01's
//! words.

mod common;

use common::encoded;
use parallel_moves::{Class, JobBuilder, PhysReg, RegBank, Resolver, TargetBuilder, text};

fn shipped() -> TargetBuilder {
    TargetBuilder::named("shipped").unwrap()
}

/// Bank and units of each register.
type Registers = Vec<(u32, Vec<u32>)>;
/// Bank, slots, members and order of each class.
type Classes = Vec<(u32, u32, Vec<u32>, Vec<u32>)>;

/// What the builder says of the target.
fn said() -> (u32, Vec<[u32; 3]>, Registers, Classes) {
    let numbers = JobBuilder::on(shipped()).numbers();
    let mut rest = numbers.into_iter();
    let mut next = || rest.next().unwrap();
    let units = next();
    let banks = (0..next()).map(|_| [next(), next(), next()]).collect();
    let mut registers = Registers::new();
    for _ in 0..next() {
        assert_eq!(next(), 0, "none is memory");
        registers.push((next(), (0..next()).map(|_| next()).collect()));
    }
    let mut classes = Classes::new();
    for _ in 0..next() {
        let (bank, slots) = (next(), next());
        let members = (0..next()).map(|_| next()).collect();
        classes.push((bank, slots, members, (0..next()).map(|_| next()).collect()));
    }
    (units, banks, registers, classes)
}

/// The target by document 01's words: registers 0 to 31 of one unit, 16 of two, 8 of four,
/// each bank with a class with slots and a stack class, both of all its registers, rising.
fn by_its_words() -> TargetBuilder {
    let mut target = TargetBuilder::default();
    for (size_log2, width) in [(2, 1), (3, 2), (4, 4)] {
        let bank = target.bank(size_log2);
        let registers: Vec<PhysReg> = (0..32 / width)
            .map(|index| {
                let first = index * width;
                let units: Vec<u32> = (first..first + width).collect();
                target.register(&units)
            })
            .collect();
        let top = target.class(Class::of(&registers).with_slots());
        let stack = target.class(Class::of(&registers));
        target.top_level_class(bank, top);
        target.stack_class(bank, stack);
    }
    target
}

#[test]
fn it_is_the_papers() {
    let numbers = |target| JobBuilder::on(target).numbers();
    assert_eq!(numbers(shipped()), numbers(by_its_words()));
    assert_eq!(by_its_words().name(), Some("shipped"));
    assert_eq!(shipped(), by_its_words());
}

/// A job on it, with a patch that moves a pair and what stands in its way.
fn job() -> JobBuilder {
    let mut job = JobBuilder::on(shipped());
    let function = job.function();
    let pair = function.value(RegBank::new(1));
    let one = function.value(RegBank::new(0));
    let [r2, r32, r0, r33] = [2, 32, 0, 33].map(PhysReg::new);
    job.patch().move_(r32, r33, pair).move_(r2, r0, one);
    job
}

#[test]
fn its_text() {
    let job = job();
    let bytes = job.bytes().unwrap();
    let short = text::from_bytes(&bytes).unwrap();
    assert_eq!(short, job.to_string());
    assert!(short.starts_with("target shipped\nslots 0\n"), "{short}");
    assert_eq!(text::to_bytes(&short).unwrap(), bytes);
    assert!(Resolver::new().answer(1, &bytes).is_ok());

    // By its other name it is the same job.
    let other = short.replace("target shipped\n", "target vfp\n");
    assert_eq!(text::to_bytes(&other).unwrap(), bytes);

    // In full it is the same job.
    let (units, banks, registers, classes) = said();
    let mut long = format!("units {units}\n");
    for (index, [size, top, stack]) in banks.iter().enumerate() {
        long += &format!("bank b{index} slots 2^{size} top-level c{top} stack c{stack}\n");
    }
    let words = |letter: &str, numbers: &[u32]| -> String {
        numbers
            .iter()
            .map(|number| format!(" {letter}{number}"))
            .collect()
    };
    for (index, (bank, units)) in registers.iter().enumerate() {
        long += &format!("register r{index} bank b{bank} units{}\n", words("", units));
    }
    for (index, (bank, slots, members, order)) in classes.iter().enumerate() {
        let slots = if *slots == 1 { " with-slots" } else { "" };
        let (members, order) = (words("r", members), words("r", order));
        long += &format!("class c{index} bank b{bank}{slots} members{members} order{order}\n");
    }
    let long_text = short.replace("target shipped\n", &long);
    assert_eq!(text::to_bytes(&long_text).unwrap(), bytes);

    // Any other target is printed in full.
    let other = text::to_bytes(&long_text.replace("slots 2^2", "slots 2^5")).unwrap();
    assert!(text::from_bytes(&other).unwrap().starts_with("units 32\n"));

    for (wrong, line, what) in [
        (short.replace("shipped", "other"), 1, "a target's name"),
        (short.replace("shipped", ""), 1, "a target's name"),
        (format!("target shipped\n{short}"), 2, "a second time"),
        (format!("units 3\n{short}"), 2, "a second time"),
        (
            short.replace("slots 0\n", "units 32\nslots 0\n"),
            2,
            "a second time",
        ),
        (
            short.replace("slots 0\n", "register r56 bank b0 units 0\nslots 0\n"),
            2,
            "a second time",
        ),
        (
            short.replace(
                "slots 0\n",
                "bank b3 slots 2^2 top-level c0 stack c1\nslots 0\n",
            ),
            2,
            "a second time",
        ),
        (short.replace("shipped", "shipped it"), 1, "the line's end"),
    ] {
        let error = text::to_bytes(&wrong).unwrap_err();
        assert_eq!(error.line(), Some(line), "{error}");
        assert!(error.to_string().contains(what), "{error}");
    }
    // What is refused has its line, where it has one.
    let refused = text::to_bytes(&short.replace("from r2 to r0", "from r2 to r2")).unwrap_err();
    assert!(
        refused.to_string().contains("patch 1, entry 2: refused 10"),
        "{refused}"
    );
}

#[test]
fn its_name() {
    assert_eq!(shipped().name(), Some("shipped"));
    assert_eq!(TargetBuilder::named("Shipped"), None);
    assert_eq!(TargetBuilder::named("vfp"), Some(shipped()));
    assert_eq!(TargetBuilder::named("VFP"), None);
    assert_eq!(JobBuilder::new().target().name(), None);
    let mut more = shipped();
    more.of_bank(RegBank::new(0))
        .class(Class::of(&[PhysReg::new(0)]));
    assert_eq!(more.name(), None);
    let mut wider = shipped();
    wider.units(33);
    assert_eq!(wider.name(), None);
    // It does not matter whether the units are counted or said.
    assert_eq!(shipped().units(32).name(), Some("shipped"));
    let read = JobBuilder::from_bytes(&job().bytes().unwrap()).unwrap();
    assert_eq!(read.clone().target().name(), Some("shipped"));
    assert_eq!(encoded(read.numbers()), job().bytes().unwrap());
}
