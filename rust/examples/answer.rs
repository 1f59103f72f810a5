//! Reads a job on standard input and prints its answer, as the program
//! `resolve` does: its argument, 1 or 2, is the number of kept evictions. Its status is 0 if the job was answered to its end, 1 if it
//! was refused, and 2 if it could not be read or its answer not printed.

use std::env;
use std::ffi::OsString;
use std::io::{self, Read, Write};
use std::process::ExitCode;

use parallel_moves::{Refusal, Resolver};

/// The number of kept evictions: 1 without an argument, and 0, which is refused, with
/// others than 1 or 2.
fn setting() -> u32 {
    let given: Vec<OsString> = env::args_os().skip(1).collect();
    match given.first().and_then(|word| word.to_str()) {
        None if given.is_empty() => 1,
        Some("1") if given.len() == 1 => 1,
        Some("2") if given.len() == 1 => 2,
        _ => 0,
    }
}

/// Prints the answer: the refusal, if there is one.
fn answer() -> io::Result<Option<Refusal>> {
    let mut job = Vec::new();
    // A longer job is refused, however long it is.
    io::stdin().take(65_537).read_to_end(&mut job)?;
    let (text, refusal) = match Resolver::new().answer(setting(), &job) {
        Ok(answer) => (answer.text(), None),
        Err(refused) => (refused.text(), Some(refused.refusal())),
    };
    let mut out = io::stdout().lock();
    out.write_all(text.as_bytes())?;
    out.flush()?;
    Ok(refusal)
}

fn main() -> ExitCode {
    match answer() {
        Ok(None) => ExitCode::SUCCESS,
        Ok(Some(refusal)) => {
            eprintln!("answer: {refusal}");
            ExitCode::from(1)
        }
        Err(error) => {
            eprintln!("answer: {error}");
            ExitCode::from(2)
        }
    }
}
