//! What belt and braces cost: `ParallelMoves::checked(true)` beside plain resolving, in
//! nanoseconds for a patch. Both sides have the same patches and take turns, each first in every
//! other round.

use std::hint::black_box;
use std::time::Instant;

use parallel_moves::{
    Allocation, CheckedMoves, Class, JobBuilder, ParallelMoves, Patch, PhysReg, RegUnit, SpillSlot,
    Value,
};

const ROUNDS: usize = 201;
/// Calls of one side that are timed together.
const CALLS: u32 = 50;
const REGISTERS: usize = 131;

/// One bank of many registers, as many values and ordinary slots.
fn opening() -> Vec<u8> {
    let mut job = JobBuilder::new();
    let target = job.target();
    let bank = target.bank(3);
    let registers: Vec<PhysReg> = (0..REGISTERS as u32)
        .map(|unit| target.register(&[unit]))
        .collect();
    let top = target.class(Class::of(&registers).with_slots());
    let stack = target.class(Class::of(&registers));
    target.top_level_class(bank, top);
    target.stack_class(bank, stack);
    let function = job.function();
    for _ in 0..REGISTERS {
        function.value(bank);
        function.slot();
    }
    function.emergency_slots(200);
    job.target_and_function().expect("it is accepted")
}

fn register(index: usize) -> Allocation {
    Allocation::reg(PhysReg::new(index))
}

fn slot(index: usize) -> Allocation {
    Allocation::spillslot(SpillSlot::new(index))
}

/// Moves from each place to the next.
fn chain(count: usize, place: fn(usize) -> Allocation, round: bool) -> Patch {
    let mut patch = Patch::new();
    patch.add_free_unit(RegUnit::new(REGISTERS - 1));
    for index in 0..count {
        let next = if round {
            (index + 1) % count
        } else {
            index + 1
        };
        patch.add_move(place(index), place(next), Value::new(index));
    }
    patch
}

/// The places of each pair change contents.
fn swaps(count: usize) -> Patch {
    let mut patch = Patch::new();
    for index in 0..count {
        patch.add_move(register(index), register(index ^ 1), Value::new(index));
    }
    patch
}

/// Nanoseconds of a call.
fn timed(mut call: impl FnMut() -> usize) -> f64 {
    let start = Instant::now();
    for _ in 0..CALLS {
        black_box(call());
    }
    start.elapsed().as_nanos() as f64 / f64::from(CALLS)
}

fn median(mut times: Vec<f64>) -> f64 {
    times.sort_by(f64::total_cmp);
    times[times.len() / 2]
}

/// Medians of a side each, in turns.
fn in_turns(sides: [&mut dyn FnMut() -> usize; 2]) -> [f64; 2] {
    let mut times = [Vec::new(), Vec::new()];
    for round in 0..ROUNDS {
        for turn in 0..2 {
            let side = (round + turn) % 2;
            times[side].push(timed(&mut *sides[side]));
        }
    }
    times.map(median)
}

fn row(name: &str, patch: &Patch, plain: &mut ParallelMoves, checked: &mut CheckedMoves) {
    let edits = plain.resolve(patch).expect("it is accepted").len();
    let [by_itself, with_check] = in_turns([
        &mut || plain.resolve(patch).map_or(0, |edits| edits.len()),
        &mut || checked.resolve(patch).map_or(0, |edits| edits.len()),
    ]);
    let [groups, groups_with] = in_turns([
        &mut || {
            plain
                .resolve_by_groups(patch)
                .map_or(0, |edits| edits.len())
        },
        &mut || {
            checked
                .resolve_by_groups(patch)
                .map_or(0, |edits| edits.len())
        },
    ]);
    println!(
        "| {name} | {} | {edits} | {by_itself:.0} | {with_check:.0} | {:.1} | {groups:.0} | {groups_with:.0} | {:.1} |",
        patch.len(),
        with_check / by_itself,
        groups_with / groups
    );
}

fn main() {
    let bytes = opening();
    let open = || ParallelMoves::open(1, &bytes).expect("it is accepted");
    let (mut plain, mut checked) = (open(), open().checked(true));
    println!("| patch | entries | edits | plain | checked | ratio | by groups | checked | ratio |");
    println!("|---|---|---|---|---|---|---|---|---|");
    for (name, patch) in [
        ("one move", chain(1, register, false)),
        ("a swap, none free", swaps(2)),
        ("chain of registers", chain(8, register, false)),
        ("rotation of registers, one free", chain(8, register, true)),
        ("swaps of registers, none free", swaps(16)),
        ("chain of registers", chain(128, register, false)),
        (
            "rotation of registers, one free",
            chain(128, register, true),
        ),
        ("swaps of registers, none free", swaps(128)),
        ("rotation of slots, one free", chain(128, slot, true)),
    ] {
        row(name, &patch, &mut plain, &mut checked);
    }
}
