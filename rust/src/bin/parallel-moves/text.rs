//! `parallel-moves text`.

use parallel_moves::{Resolver, text};

use crate::command::{Command, Each, Outcome, Run, if_text, refused};
use crate::given::Given;
use crate::jobs::Kind;

pub const COMMAND: Command = Command {
    name: "text",
    words: "[JOB..]",
    options: &[],
    about: &[
        "Prints a job's bytes as text, one line for each bank, register, class, value,",
        "patch and entry. A refused job has a text too, unless its numbers cannot be",
        "told apart.",
    ],
    run: Run::Each(Each {
        kind: Kind::Job,
        writes: "txt",
        run,
    }),
};

fn run(_: &Given, _: &mut Resolver, job: &[u8]) -> Outcome {
    match text::from_bytes(job) {
        Ok(text) => Ok(text.into_bytes()),
        Err(error) => Err(refused(error.to_string() + if_text(job))),
    }
}
