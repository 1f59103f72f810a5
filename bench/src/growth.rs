//! How times grow with the entries of a patch, and that they do not with the
//! size of the tables.

use crate::draft::{Draft, Entry, Patch, Place, Register, Target, Value};
use crate::jobs::{LIMIT, Row, with_classes};
use crate::pairs::{Memory, Pair, Taken, time_jobs, time_patches};
use crate::time::Clock;

const ROUNDS: usize = 2001;

/// Kinds of patches, by how the moves hang together.
#[derive(Clone, Copy, PartialEq, Eq)]
pub enum Kind {
    /// Each place to the next, the first move first: each visited by itself.
    Flat,
    /// The same, the last move first: one visit inside of another.
    Chain,
    /// The same, and the last place to the first.
    Rotation,
    /// Pairs of places swapped.
    Swaps,
    /// No moves: each place rebuilt, without scratch.
    Remats,
}

/// A place by its number, of one sort.
pub type Places = fn(usize) -> Place;

/// A patch of so many moves, each of a value of its own; no unit is free but
/// the one given.
pub fn patch(kind: Kind, count: usize, place: Places, free: Option<usize>) -> Patch {
    let next = |index: usize| match kind {
        Kind::Flat | Kind::Chain | Kind::Remats => index + 1,
        // A rotation of one place is none, nor is there half a swap.
        Kind::Rotation | Kind::Swaps if count == 1 => 1,
        Kind::Rotation => (index + 1) % count,
        Kind::Swaps => index ^ 1,
    };
    let moves = (0..count).map(|index| Entry {
        source: (kind != Kind::Remats).then(|| place(index)),
        dest: place(next(index)),
        value: index,
    });
    Patch {
        free: free.into_iter().collect(),
        entries: match kind {
            Kind::Flat => moves.collect(),
            _ => moves.rev().collect(),
        },
    }
}

/// As many registers of one unit in bank 0 as are asked for; the units left are
/// those of bank 1, eight to a register.
pub fn target(units: usize, registers: usize) -> Target {
    let mut all: Vec<Register> = (0..registers)
        .map(|unit| Register {
            memory: false,
            bank: 0,
            units: vec![unit],
        })
        .collect();
    let rest: Vec<usize> = (registers..units).collect();
    all.extend(
        rest.chunks(8)
            .filter(|units| units.len() == 8)
            .map(|units| Register {
                memory: false,
                bank: 1,
                units: units.to_vec(),
            }),
    );
    let banks = if rest.len() < 8 { 1 } else { 2 };
    with_classes(units, all, banks)
}

/// A job of one patch; its values can be rebuilt if the patch does so.
pub fn job(target: Target, values: usize, slots: usize, patch: Patch) -> Draft {
    let remat = patch.entries.iter().any(|entry| entry.source.is_none());
    let value = Value {
        bank: 0,
        cost: usize::from(remat),
        class: 0,
    };
    Draft {
        target,
        values: vec![value; values],
        slots,
        emergency_limit: LIMIT,
        patches: vec![patch],
    }
}

/// For counts: one entry and 128 of each kind.
pub fn rows() -> Vec<Row> {
    let mut rows = Vec::new();
    for (target, kind, place, free) in KINDS {
        for (size, count) in [("1", 1), ("128", 128)] {
            let jobs = vec![entries_job(kind, count, place, free)];
            rows.push(Row { target, size, jobs });
        }
    }
    rows
}

/// A job of one patch of so many entries.
pub fn entries_job(kind: Kind, count: usize, place: Places, free: Option<usize>) -> Draft {
    job(target(131, 131), 130, 130, patch(kind, count, place, free))
}

fn time(clock: &Clock, jobs: &[Draft]) -> Vec<Taken> {
    let mut memory = Memory::new();
    let mut pairs: Vec<Pair> = jobs.iter().map(Pair::open).collect();
    for pair in &mut pairs {
        pair.compare_job(&mut memory);
        for _ in 0..3 {
            pair.compare(&mut memory);
        }
    }
    time_patches(clock, &mut pairs, &mut memory, ROUNDS)
}

pub fn print() {
    let clock = Clock::new();
    print_entries(&clock);
    println!();
    print_tables(&clock);
    println!();
    print_reading(&clock);
}

/// Kinds with their places and a free unit.
const KINDS: [(&str, Kind, Places, Option<usize>); 7] = [
    (
        "chain of registers, first move first",
        Kind::Flat,
        Place::Register,
        None,
    ),
    (
        "chain of registers, last move first",
        Kind::Chain,
        Place::Register,
        None,
    ),
    (
        "rotation of registers, one free",
        Kind::Rotation,
        Place::Register,
        Some(130),
    ),
    (
        "swaps of registers, none free",
        Kind::Swaps,
        Place::Register,
        None,
    ),
    (
        "chain of slots, last move first",
        Kind::Chain,
        Place::Slot,
        Some(130),
    ),
    ("registers rebuilt", Kind::Remats, Place::Register, None),
    (
        "rotation of slots, none free",
        Kind::Rotation,
        Place::Slot,
        None,
    ),
];

fn print_entries(clock: &Clock) {
    println!("Nanoseconds against entries, medians: 131 registers, 130 values, N = 130.\n");
    println!(
        "| patch | entries | adding and resolving: original | ours | ratio | ours, by entry |"
    );
    println!("|---|---|---|---|---|---|");
    for (name, kind, place, free) in KINDS {
        let counts = [1, 2, 4, 8, 16, 32, 64, 128];
        let jobs = counts.map(|count| entries_job(kind, count, place, free));
        for (count, taken) in counts.into_iter().zip(time(clock, &jobs)) {
            println!(
                "| {name} | {count} | {:.0} | {:.0} | {:.2} | {:.1} |",
                taken.theirs,
                taken.ours,
                taken.ratio(),
                taken.ours / count as f64
            );
        }
    }
}

fn print_tables(clock: &Clock) {
    println!(
        "The same patch, 16 registers rotated through a free one, or 16 slots, over tables of other sizes; bank 0 has 32 registers.\n"
    );
    println!(
        "| units | values | N | registers: original | ours | ratio | slots: original | ours | ratio |"
    );
    println!("|---|---|---|---|---|---|---|---|---|");
    let sizes = [
        (32, 16, 16),
        (512, 16, 16),
        (32, 4096, 16),
        (32, 16, 4096),
        (512, 4096, 4096),
    ];
    let of = |place: Places| {
        let jobs = sizes.map(|(units, values, slots)| {
            let patch = patch(Kind::Rotation, 16, place, Some(31));
            job(target(units, 32), values, slots, patch)
        });
        time(clock, &jobs)
    };
    let (registers, slots) = (of(Place::Register), of(Place::Slot));
    for (at, (units, values, n)) in sizes.into_iter().enumerate() {
        let cells = [registers[at], slots[at]].map(|taken| {
            format!(
                "{:.0} | {:.0} | {:.2}",
                taken.theirs,
                taken.ours,
                taken.ratio()
            )
        });
        println!("| {units} | {values} | {n} | {} |", cells.join(" | "));
    }
}

/// One bank of registers that lie one after the other on 512 units, from the
/// start again where these end. Or half of them are memory, of one unit each, on
/// the upper half of the units, and the others lie on the lower half.
fn wide_target(registers: usize, width: usize, memory: bool) -> Target {
    let ordinary = if memory { 256 } else { 512 };
    let all = (0..registers)
        .map(|index| {
            let memory = memory && index < registers / 2;
            let start = index * width % ordinary;
            Register {
                memory,
                bank: 0,
                units: if memory {
                    vec![256 + index % 256]
                } else {
                    (start..start + width).collect()
                },
            }
        })
        .collect();
    with_classes(512, all, 1)
}

fn print_reading(clock: &Clock) {
    println!(
        "Whole jobs of one patch, a move between two slots, against what is to be read; nanoseconds, medians.\n"
    );
    println!("| registers | units of each | memory | values | bytes | original | ours | ratio |");
    println!("|---|---|---|---|---|---|---|---|");
    let cases = [
        (8, 1, false, 16),
        (32, 1, false, 16),
        (128, 1, false, 16),
        (256, 1, false, 16),
        (512, 1, false, 16),
        (8, 8, false, 16),
        (32, 8, false, 16),
        (128, 8, false, 16),
        (512, 8, false, 16),
        (32, 8, true, 16),
        (128, 8, true, 16),
        (512, 8, true, 16),
        (32, 1, false, 256),
        (32, 1, false, 1024),
        (32, 1, false, 4096),
    ];
    let mut memory = Memory::new();
    let pairs: Vec<Pair> = cases
        .iter()
        .map(|&(registers, width, memory, values)| {
            let patch = patch(Kind::Flat, 1, Place::Slot, None);
            Pair::open(&job(
                wide_target(registers, width, memory),
                values,
                16,
                patch,
            ))
        })
        .collect();
    for pair in &pairs {
        pair.compare_job(&mut memory);
    }
    let taken = time_jobs(clock, &pairs, &mut memory, 51);
    for ((registers, width, memory, values), (pair, taken)) in
        cases.into_iter().zip(pairs.iter().zip(taken))
    {
        println!(
            "| {registers} | {width} | {} | {values} | {} | {:.0} | {:.0} | {:.2} |",
            if memory { "half, of one unit" } else { "none" },
            pair.ours.bytes.len(),
            taken.theirs,
            taken.ours,
            taken.ratio()
        );
    }
}
