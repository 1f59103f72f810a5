//! `parallel-moves groups`.

use parallel_moves::{Refusal, RefusedJob, Resolver};

use crate::command::{self, Command, Each, Failure, Outcome, Run};
use crate::given::{Given, KEPT};
use crate::jobs::Kind;
use crate::resolve::{CHECK, checked};

pub const COMMAND: Command = Command {
    name: "groups",
    words: "[--kept K] [--check] [JOB..]",
    options: &[KEPT, CHECK],
    about: &[
        "Prints what `resolve` does, with each patch resolved by groups: entries that share a",
        "unit of a source or a destination, also through others in a chain. Groups go in the",
        "order of their first entry, each as a patch of its entries alone, whose free units",
        "are those that no source of another group has.",
    ],
    run: Run::Each(Each {
        kind: Kind::Job,
        writes: "out",
        run,
    }),
};

fn run(given: &Given, resolver: &mut Resolver, job: &[u8]) -> Outcome {
    let kept = given.kept();
    match resolver.answer_by_groups(kept, job) {
        Ok(answer) => {
            checked(given, job, &answer)?;
            Ok(answer.text().into_bytes())
        }
        Err(error) => {
            checked(given, job, error.before())?;
            let why = located(resolver, kept, job, &error);
            Err(Failure::Refused(error.text().into_bytes(), why))
        }
    }
}

/// Why a job is refused by groups, with where. Of 17 it is the patch: the whole one may get
/// none.
pub fn located(resolver: &mut Resolver, kept: u32, job: &[u8], error: &RefusedJob) -> String {
    let refusal = error.refusal();
    match refusal {
        Refusal::OutOfSlots => {
            format!("patch {}: {refusal}", 1 + error.before().patches().count())
        }
        _ => command::located(resolver, kept, job, refusal),
    }
}
