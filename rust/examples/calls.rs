//! Describes a target and a function, opens it and has two patches of it resolved, as a
//! compiler does. Prints the L to plan with, the edits, and which build it is.

use parallel_moves::{BUILD, Class, Edit, JobBuilder, ParallelMoves, Patch, Refusal};

fn main() -> Result<(), Refusal> {
    // Three registers of one unit each, whose emergency slots have 2^3 bytes.
    let mut job = JobBuilder::new();
    let target = job.target();
    let bank = target.bank(3);
    let [r0, r1, r2] = [0, 1, 2].map(|unit| target.register(&[unit]));
    let top = target.class(Class::of(&[r0, r1, r2]).with_slots());
    let stack = target.class(Class::of(&[r0, r1, r2]));
    target.top_level_class(bank, top).stack_class(bank, stack);

    // Two values, no ordinary slots, and one emergency slot that may be made.
    let function = job.function();
    let [v0, v1] = [(); 2].map(|()| function.value(bank));
    function.emergency_slots(1);
    let target_and_function = job.target_and_function()?;

    // One register may be evicted at a time.
    let enough = ParallelMoves::enough_slots(1, &target_and_function)?;
    println!("slots to plan with: {enough}");
    let mut moves = ParallelMoves::open(1, &target_and_function)?;
    let mut patch = Patch::new();
    let mut code: Vec<Edit> = Vec::new();

    // Registers 0 and 1 change their contents.
    patch.move_(r0, r1, v0).move_(r1, r0, v1);
    code.extend(moves.resolve(&patch)?);

    // The same, where nothing is needed of what register 2 holds.
    patch.clear();
    patch.move_(r0, r1, v0).move_(r1, r0, v1).free(&[2]);
    code.extend(moves.resolve(&patch)?);

    for edit in &code {
        println!("{edit}");
    }
    println!("slots made: {}", moves.made());
    println!("{BUILD}");
    Ok(())
}
