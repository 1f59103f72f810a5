//! A small compiler of formulas: what the library is for.
//!
//! A lime formula (`lime`) is three-address code in blocks (`code`). It is compiled for a target of three
//! registers and for the shipped one (`allocate`), block by block. Where two paths come together, each left its
//! values elsewhere, and the library says how they get to where the rest expects them. What comes of it is run on
//! the machine of `docs/JOB.md` (`machine`) and, where there is one, on the target's processor (`native`, through
//! `lower`). All rates are the same, or the program fails.
//!
//! `cargo run --release --example formula`

use std::env;
use std::error::Error;
use std::path::Path;
use std::process;

pub(crate) mod allocate;
pub(crate) mod code;
pub(crate) mod lime;
#[path = "../lower.rs"]
#[allow(dead_code)]
pub(crate) mod lower;
pub(crate) mod machine;
pub(crate) mod native;
pub(crate) mod processor;
pub(crate) mod target;

use parallel_moves::Edit;

use lime::Sample;
use target::Target;

/// The pH asks for more lime than the buffer, the buffer does, the pH again, and none is needed.
const SAMPLES: [Sample; 4] = [
    [5.1, 6.5, 6.2, 1.0],
    [5.8, 6.5, 5.4, 2.0],
    [4.6, 6.8, 5.9, 3.0],
    [6.9, 6.5, 6.8, 2.0],
];

/// What a target makes of the formula.
pub struct Outcome {
    /// The edits of each edge.
    pub edges: Vec<Vec<Edit>>,
    /// The rates.
    pub on_the_machine: Vec<f64>,
    /// Or what is missing to run it there.
    pub on_the_processor: Result<Vec<f64>, String>,
}

/// Compiles the formula for a target and runs it on samples.
///
/// # Errors
///
/// If the library refuses a patch, or what was built for a processor that is there cannot be built or run.
pub fn run(target: &Target, samples: &[Sample], folder: &Path) -> Result<Outcome, Box<dyn Error>> {
    let formula = lime::formula();
    let program = allocate::compile(&formula, target)?;
    let rate = |&sample| machine::run(&formula, target, &program, sample);
    let on_the_processor = match target.assembler.processor().missing(folder) {
        Some(missing) => Err(missing),
        None => Ok(native::rates(&formula, target, &program, samples, folder)?),
    };
    let on_the_machine = samples.iter().map(rate).collect();
    Ok(Outcome {
        edges: program.edges,
        on_the_machine,
        on_the_processor,
    })
}

/// Prints rates, if they are the formula's own.
fn print(name: &str, rates: &[f64]) -> Result<(), Box<dyn Error>> {
    let each: String = rates.iter().map(|rate| format!("{rate:8.3}")).collect();
    println!("{name:24}{each}");
    if rates == SAMPLES.map(lime::rate) {
        Ok(())
    } else {
        Err("these are not the formula's rates".into())
    }
}

fn main() -> Result<(), Box<dyn Error>> {
    print("lime, t/ha", &SAMPLES.map(lime::rate))?;
    let folder = env::temp_dir().join(format!("formula-{}", process::id()));
    for target in [Target::three(), Target::shipped()] {
        let outcome = run(&target, &SAMPLES, &folder)?;
        println!("{}", target.name);
        for (edge, number) in outcome.edges.iter().zip(1..) {
            let edits: Vec<String> = edge.iter().map(|edit| format!(" {edit};")).collect();
            println!("  edge {number}:{}", edits.concat());
        }
        print("  on the machine", &outcome.on_the_machine)?;
        let processor = target.assembler.processor().name;
        match outcome.on_the_processor {
            Ok(rates) => print(&format!("  on {processor}"), &rates)?,
            Err(missing) => println!("  not on {processor}: {missing} is missing"),
        }
    }
    if folder.exists() {
        std::fs::remove_dir_all(folder)?;
    }
    Ok(())
}
