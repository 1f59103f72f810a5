//! `parallel-moves positions`.

use parallel_moves::{Answer, Resolver};

use crate::command::{Command, Each, Failure, Outcome, Run, located};
use crate::given::{Given, KEPT};
use crate::jobs::Kind;

pub const COMMAND: Command = Command {
    name: "positions",
    words: "[--kept K] [JOB..]",
    options: &[KEPT],
    about: &[
        "Prints for each patch of a job the greatest position that a search for a scratch",
        "register met in its class's order, counted from 0; the order's length where none",
        "there would do, and 0 without searches.",
    ],
    run: Run::Each(Each {
        kind: Kind::Job,
        writes: "positions",
        run,
    }),
};

fn run(given: &Given, resolver: &mut Resolver, job: &[u8]) -> Outcome {
    let kept = given.kept();
    match resolver.answer(kept, job) {
        Ok(answer) => Ok(lines(&answer)),
        Err(error) => {
            let why = located(resolver, kept, job, error.refusal());
            Err(Failure::Refused(lines(error.before()), why))
        }
    }
}

fn lines(answer: &Answer) -> Vec<u8> {
    let numbered = (1..).zip(answer.patches());
    let lines: String = numbered
        .map(|(number, patch)| format!("patch {number} position {}\n", patch.position()))
        .collect();
    lines.into_bytes()
}
