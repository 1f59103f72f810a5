//! Holds frames of our static library against request 02 l, as `judge::sharing` has it.

#[path = "framed/both.rs"]
mod both;
#[path = "framed/ours.rs"]
mod ours;
#[path = "framed/print.rs"]
mod print;
#[path = "framed/schedule.rs"]
mod schedule;

use std::error::Error;
use std::process::ExitCode;

use both::Counts;
use judge::random::Random;
use ours::{Fault, Ours};
use print::print_all;
use schedule::schedule;

const HELP: &str = "\
framed SEED COUNT [FAULT]
    Makes COUNT random schedules: a frame, its formulas, and calls of them, resolving, asking
    and taking. Prints counts and `no difference`, or the first difference, and ends with 1.
    FAULT is one that must be found: lack, made or counter.
framed print STDIN
    Prints what our library answers to the schedules that `schedules` recorded.
";

fn main() -> Result<ExitCode, Box<dyn Error>> {
    let words: Vec<String> = std::env::args().skip(1).collect();
    let (seed, count, fault) = match words.iter().map(String::as_str).collect::<Vec<_>>()[..] {
        ["print", path] => {
            print_all(path)?;
            return Ok(ExitCode::SUCCESS);
        }
        [seed, count] => (seed, count, Fault::None),
        [seed, count, "lack"] => (seed, count, Fault::Lack),
        [seed, count, "made"] => (seed, count, Fault::Made),
        [seed, count, "counter"] => (seed, count, Fault::Counter),
        _ => {
            eprint!("{HELP}");
            return Ok(ExitCode::from(2));
        }
    };
    let mut random = Random::new(seed.parse()?);
    let count: usize = count.parse()?;
    let mut ours = Ours::new(fault);
    let mut counts = Counts::default();
    for done in 0..count {
        if let Err(what) = schedule(&mut random, &mut ours, &mut counts) {
            println!("DIFFERENCE after {done} schedules\n{what}");
            return Ok(ExitCode::FAILURE);
        }
    }
    let Counts {
        resolved,
        refused,
        out,
        asked,
        taken,
        late,
        frames,
    } = counts;
    println!(
        "schedules {count}: resolved {resolved}, asked {asked}, taken {taken}, 20 {late}, refused {refused}, of these 17 {out}; frames refused {frames}"
    );
    println!("no difference");
    Ok(ExitCode::SUCCESS)
}
