//! `parallel-moves stamp`.

use parallel_moves::BUILD;

use crate::command::{Command, Outcome, Run};
use crate::given::Given;

pub const COMMAND: Command = Command {
    name: "stamp",
    words: "",
    options: &[],
    about: &[
        "Prints which build this is, in one line: version, the SHA-256 sums of the",
        "library's archives, kit, sum of the logic, commit.",
    ],
    run: Run::Once(run),
};

fn run(given: &Given) -> Outcome {
    match given.words.is_empty() {
        true => Ok(format!("{BUILD}\n").into_bytes()),
        false => Err(given.wrong("stamp is given nothing")),
    }
}

/// The version of the crate, and which build this is.
pub fn version() -> String {
    format!("parallel-moves {}\n{BUILD}\n", env!("CARGO_PKG_VERSION"))
}
