//! Edits on a processor: `examples/lower.rs` turns the edits of drawn patches into assembly, which is assembled
//! and run on drawn contents; and the rates of `examples/formula` are the formula's own.

mod common;
#[path = "processors/drawn.rs"]
mod drawn;
#[path = "../examples/formula/main.rs"]
#[allow(dead_code)]
mod formula;
#[path = "processors/runs.rs"]
mod runs;
#[path = "processors/subject.rs"]
mod subject;

use std::collections::BTreeSet;
use std::env;
use std::io::{self, Write};
use std::path::{Path, PathBuf};

use parallel_moves::{Allocation, AllocationKind, Edit};

use drawn::Drawn;
use formula::allocate::{Code, compile};
use formula::lime::{self, Sample};
use formula::lower;
use formula::machine;
use formula::target::Target;
use runs::{Counts, run};
use subject::Subject;

/// So many patches are in one program.
const OF_A_PROGRAM: usize = 300;

/// A number that the environment gives, or another.
fn given(name: &str, otherwise: usize) -> usize {
    env::var(name).map_or(otherwise, |number| number.parse().unwrap())
}

fn folder(name: &str) -> PathBuf {
    Path::new(env!("CARGO_TARGET_TMPDIR"))
        .join("processors")
        .join(name)
}

/// Says a line, also where the test passes.
fn say(line: &str) {
    io::stderr()
        .write_all(format!("{line}\n").as_bytes())
        .unwrap();
}

/// Whether the processor's tools are there; else says what is left out.
fn is_there(subject: &Subject, name: &str) -> bool {
    let missing = subject.processor.missing(&folder(name));
    if let Some(missing) = &missing {
        let processor = subject.processor.name;
        say(&format!(
            "skipped: edits on {processor}; {missing} is missing"
        ));
    }
    missing.is_none()
}

/// Each list of edits does what its patch says, and a faulty one is told where the machine tells it. The lines that
/// are assembled have such a part somewhere.
fn patches(subject: &Subject, name: &str, part: &str) -> Option<Counts> {
    if !is_there(subject, name) {
        return None;
    }
    let (seed, count) = (
        given("PROCESSORS_SEED", 44),
        given("PROCESSORS_PATCHES", 300),
    );
    let (mut counts, mut has_part) = (Counts::default(), false);
    for first in (0..count).step_by(OF_A_PROGRAM) {
        let patches = OF_A_PROGRAM.min(count - first);
        let seed = (seed as u64) << 32 | first as u64;
        let look = |text: String| {
            has_part |= text.contains(part);
            text
        };
        run(subject, seed, patches, &folder(name), look, &mut counts);
    }
    println!("{}: {counts}", subject.processor.name);
    assert_eq!(counts.patches, count);
    assert_eq!((counts.wrong, counts.first_wrong.as_deref()), (0, None));
    assert_eq!(counts.unlike_the_machine, 0);
    assert_eq!(counts.told, counts.told_by_the_machine);
    // Most faults matter.
    assert!(2 * counts.told > counts.faulty);
    assert!(has_part, "{part}");
    Some(counts)
}

/// Some slots lie out of the reach of a load, and no value is rebuilt in one.
#[test]
fn on_arm() {
    if let Some(counts) = patches(&Subject::arm(), "arm", "add ip, sp, ip") {
        assert_eq!(counts.kinds.len(), 6);
        assert!(!counts.kinds.contains_key("rebuilt in a slot"));
        assert!(counts.other_by_groups > 0);
    }
}

/// Argument words are read and written.
#[test]
fn on_x86_64() {
    if let Some(counts) = patches(&Subject::x86_64(), "x86-64", "movups [rsp + 48], xmm") {
        assert_eq!(counts.kinds.len(), 7);
        assert!(counts.other_by_groups > 0 && counts.other_with_two > 0);
    }
}

/// What `examples/lower.rs` prints has each kind of edit, and is assembled.
#[test]
fn the_printed_pages() {
    let pages = [lower::arm_page(), lower::x86_64_page()].map(Result::unwrap);
    for (subject, page) in [Subject::arm(), Subject::x86_64()].iter().zip(pages) {
        let remarks = page
            .lines()
            .filter(|line| line.trim().starts_with(subject.remark));
        let letters: BTreeSet<&str> = remarks
            .filter_map(|line| line.split_whitespace().nth(1))
            .collect();
        assert!(
            ["M", "R", "S", "L"]
                .iter()
                .all(|letter| letters.contains(letter)),
            "{page}"
        );
        let name = format!("page-{}", subject.processor.name);
        if is_there(subject, &name) {
            let text = format!(
                "{}{page}.section .note.GNU-stack, \"\", %progbits\n",
                subject.head
            );
            let files = [
                ("main.c", "int main(void) { return 0; }\n"),
                ("page.s", &text),
            ];
            subject.processor.run(&folder(&name), &files, &[]).unwrap();
        }
    }
}

/// An xmm register that is written by AVX loses the high half of its ymm register, and that is told.
#[test]
fn the_high_half_is_watched() {
    let subject = Subject::x86_64();
    if is_there(&subject, "avx") {
        let by_avx = |text: String| text.replace("    movups xmm", "    vmovups xmm");
        let mut counts = Counts::default();
        run(&subject, 1, 50, &folder("avx"), by_avx, &mut counts);
        assert!(
            counts.wrong > 0 && counts.unlike_the_machine >= counts.wrong,
            "{counts}"
        );
    }
}

/// Samples of all kinds: on either side of each branch.
fn samples() -> Vec<Sample> {
    let mut drawn = Drawn::new(6);
    let mut between = |low: f64, high: f64| low + (high - low) * drawn.below(1000) as f64 / 1000.0;
    let sample = |_| {
        [
            between(4.0, 7.5),
            between(6.0, 7.0),
            between(5.0, 7.0),
            between(1.0, 3.0).round(),
        ]
    };
    (0..100).map(sample).collect()
}

/// The formula compiled for a target gives its own rates, to the last bit. Answers the edits of its edges.
fn rates(target: &Target, name: &str) -> Vec<Vec<Edit>> {
    let samples = samples();
    let direct: Vec<f64> = samples.iter().map(|&sample| lime::rate(sample)).collect();
    assert!(direct.contains(&0.0) && direct.iter().any(|&rate| rate > 5.0));
    let outcome = formula::run(target, &samples, &folder(name)).unwrap();
    assert_eq!(outcome.on_the_machine, direct);
    match outcome.on_the_processor {
        Ok(rates) => assert_eq!(rates, direct),
        Err(missing) => say(&format!(
            "skipped: the formula on a processor; {missing} is missing"
        )),
    }
    outcome.edges
}

/// Two paths come together twice: the first to come finds its values in place.
#[test]
fn the_formula_with_three_registers() {
    let edges = rates(&Target::three(), "three");
    let is_memory = |place: Allocation| matches!(place.kind(), AllocationKind::SpillSlot(_));
    let through_memory = |edit: &Edit| matches!(*edit, Edit::Move { to, from, .. } if is_memory(to) || is_memory(from));
    assert_eq!(edges.iter().map(Vec::len).collect::<Vec<_>>(), [0, 3, 0, 1]);
    assert!(edges[1].iter().all(through_memory), "{edges:?}");
}

#[test]
fn the_formula_on_the_shipped_target() {
    let edges = rates(&Target::shipped(), "shipped");
    assert_eq!(edges.iter().map(Vec::len).collect::<Vec<_>>(), [0, 3, 0, 1]);
    // Two values change their places through a third.
    let [
        Edit::Move {
            to: scratch,
            from: first,
            ..
        },
        Edit::Move { from: second, .. },
        last,
    ] = edges[1][..]
    else {
        panic!("{edges:?}");
    };
    assert!(
        matches!(last, Edit::Move { to, from, .. } if to == second && from == scratch && first != second)
    );
}

/// Where two edits of the swap are exchanged, a value is lost, and each rate is another that goes that way.
#[test]
fn a_lost_value_gives_another_rate() {
    let (formula, target) = (lime::formula(), Target::shipped());
    let mut program = compile(&formula, &target).unwrap();
    let block = &mut program.blocks[lime::PH_ASKS];
    let [
        ..,
        Code::Edit(first),
        Code::Edit(second),
        Code::Edit(_),
        Code::Jump(_),
    ] = &mut block[..]
    else {
        panic!("the block does not end in a swap");
    };
    std::mem::swap(first, second);
    let goes_that_way = |&[ph, aim, buffer, texture]: &Sample| {
        ph < aim && (aim - ph) * (texture * 1.5 + 2.0) >= (7.0 - buffer) * 4.0
    };
    let is_other =
        |&sample: &Sample| machine::run(&formula, &target, &program, sample) != lime::rate(sample);
    let samples = samples();
    assert!(samples.iter().any(goes_that_way));
    assert!(
        samples
            .iter()
            .all(|sample| is_other(sample) == goes_that_way(sample))
    );
}
