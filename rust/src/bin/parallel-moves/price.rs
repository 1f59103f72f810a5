//! `parallel-moves price`.

use parallel_moves::{Refusal, Resolver, priced_job};

use crate::command::{Command, Each, Failure, Outcome, Run, located};
use crate::given::{Given, KEPT, Opt, PRICES};
use crate::jobs::Kind;

const RUNS: Opt = Opt {
    name: "--runs",
    value: "N,..",
    needed: false,
    about: "how often each patch of a job is run, if products are wanted",
};

pub const COMMAND: Command = Command {
    name: "price",
    words: "[--kept K] --prices M,R,S,L [--runs N,..] [JOB..]",
    options: &[KEPT, PRICES, RUNS],
    about: &[
        "Prints what each patch of a job costs, as the program `price_job` does. Where one is",
        "refused, those before it are printed and `refused` with the number.",
    ],
    run: Run::Each(Each {
        kind: Kind::Job,
        writes: "price",
        run,
    }),
};

fn run(given: &Given, resolver: &mut Resolver, job: &[u8]) -> Outcome {
    let (kept, prices) = (given.kept(), given.prices()?);
    let runs: Vec<u64> = given.list(&RUNS, u64::MAX);
    // 19 comes after the target's refusals, and before those of the function.
    let patches = match priced_job(kept, prices, job) {
        Ok(patches) => patches as usize,
        Err(refusal) => {
            let why = match refusal {
                Refusal::OutsidePrice => given.outside(&PRICES, refusal),
                _ => located(resolver, kept, job, refusal),
            };
            return Err(refused_at(String::new(), refusal, why));
        }
    };
    // Then 2 for the run counts, before a patch is looked at.
    if !runs.is_empty() && runs.len() != patches {
        let (runs, patches) = (counted(runs.len(), "run count"), counted(patches, "patch"));
        let refusal = Refusal::NamesNothing;
        let why = format!("refused {}: {runs} for {patches}", refusal.number());
        return Err(refused_at(String::new(), refusal, why));
    }
    let answered = resolver.answer(kept, job);
    let answer = match &answered {
        Ok(answer) => answer,
        Err(error) => error.before(),
    };
    let mut lines = String::new();
    for (number, patch) in (1..).zip(answer.patches()) {
        let count = runs.get(number - 1).copied();
        let edge = match patch.price(prices, count.unwrap_or(0)) {
            Ok(edge) => edge,
            Err(refusal) => {
                let why = format!("patch {number}: {}", given.outside(&RUNS, refusal));
                return Err(refused_at(lines, refusal, why));
            }
        };
        let edits = patch.edits().len();
        lines += &format!("patch {number} edits {edits} total {}", edge.total);
        if count.is_some() {
            lines += &format!(" runs {} product {}", edge.runs, edge.product);
        }
        lines.push('\n');
    }
    match answered {
        Ok(_) => Ok(lines.into_bytes()),
        Err(error) => {
            let refusal = error.refusal();
            let why = located(resolver, kept, job, refusal);
            Err(refused_at(lines, refusal, why))
        }
    }
}

/// The lines before a refusal, its own, and why.
fn refused_at(mut lines: String, refusal: Refusal, why: String) -> Failure {
    lines += &format!("refused {}\n", refusal.number());
    Failure::Refused(lines.into_bytes(), why)
}

fn counted(count: usize, what: &str) -> String {
    match (count, what) {
        (1, what) => format!("1 {what}"),
        (count, "patch") => format!("{count} patches"),
        (count, what) => format!("{count} {what}s"),
    }
}
