//! `parallel-moves bytes`.

use parallel_moves::{Resolver, text};

use crate::command::{Command, Each, Outcome, Run, if_job, refused};
use crate::given::Given;
use crate::jobs::Kind;

pub const COMMAND: Command = Command {
    name: "bytes",
    words: "[TEXT..]",
    options: &[],
    about: &[
        "Writes the bytes of the job that such a text says. One that reading would",
        "refuse is not written: the line is said, and the number.",
    ],
    run: Run::Each(Each {
        kind: Kind::Text,
        writes: "job",
        run,
    }),
};

fn run(_: &Given, _: &mut Resolver, bytes: &[u8]) -> Outcome {
    let why = match std::str::from_utf8(bytes).map(text::to_bytes) {
        Ok(Ok(job)) => return Ok(job),
        Ok(Err(error)) => error.to_string(),
        Err(_) => "the text is not UTF-8".to_owned(),
    };
    Err(refused(why + if_job(bytes)))
}
