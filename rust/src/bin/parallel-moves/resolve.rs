//! `parallel-moves resolve`.

use parallel_moves::{Answer, Resolver};

use crate::command::{Command, Each, Failure, Outcome, Run, located};
use crate::given::{Given, KEPT, Opt};
use crate::jobs::Kind;

pub const CHECK: Opt = Opt {
    name: "--check",
    value: "",
    needed: false,
    about: "examines the edits first; of a job with one patch not confirmed, prints nothing",
};

pub const COMMAND: Command = Command {
    name: "resolve",
    words: "[--kept K] [--check] [JOB..]",
    options: &[KEPT, CHECK],
    about: &[
        "Prints the edits of a job's patches, as the program `resolve` does. Where a",
        "patch is refused, those before it are printed and `refused` with the number.",
    ],
    run: Run::Each(Each {
        kind: Kind::Job,
        writes: "out",
        run,
    }),
};

fn run(given: &Given, resolver: &mut Resolver, job: &[u8]) -> Outcome {
    let kept = given.kept();
    match resolver.answer(kept, job) {
        Ok(answer) => {
            checked(given, job, &answer)?;
            Ok(answer.text().into_bytes())
        }
        Err(error) => {
            checked(given, job, error.before())?;
            let why = located(resolver, kept, job, error.refusal());
            Err(Failure::Refused(error.text().into_bytes(), why))
        }
    }
}

/// Whether the edits are confirmed, if that is asked. Those that are not say that the library is
/// not what it was proved to be: then nothing is printed.
pub fn checked(given: &Given, job: &[u8], answer: &Answer) -> Result<(), Failure> {
    match given.has(&CHECK) {
        true => confirmed(job, answer),
        false => Ok(()),
    }
}

fn confirmed(job: &[u8], answer: &Answer) -> Result<(), Failure> {
    let confirmed = answer.confirm(job);
    confirmed.map_err(|unconfirmed| Failure::Broken(unconfirmed.to_string()))
}

#[cfg(test)]
mod tests {
    use super::*;

    /// The answer of one job is not that of another: the patch is named, and the status is that
    /// of something that went wrong.
    #[test]
    fn another_answer_fails() {
        let read = |name| std::fs::read(format!("../examples/{name}.job")).unwrap();
        let (swap, other) = (read("swap-full"), read("pictures/slot-handed-on"));
        let answer = Resolver::new().answer(1, &swap).unwrap();
        assert!(confirmed(&swap, &answer).is_ok());
        let failure = confirmed(&other, &answer).unwrap_err();
        assert_eq!(failure.status(), 2);
        assert!(
            failure
                .what()
                .starts_with("patch 1: the edits that were made are not confirmed")
        );
    }
}
