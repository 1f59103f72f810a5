//! Jobs on the command line: `parallel-moves --help` says what it does.
//!
//! Each command has a file of its own with a row [`Command`], and a line in [`COMMANDS`].

mod bytes;
mod command;
mod examine;
mod given;
mod groups;
mod jobs;
mod lists;
mod positions;
mod price;
mod resolve;
mod show;
mod stamp;
mod text;
mod tries;

use std::ffi::{OsStr, OsString};
use std::io::{self, Write};
use std::process::ExitCode;

use command::{Command, Failure, Run};
use given::Given;

/// In the order in which they are explained.
const COMMANDS: &[Command] = &[
    resolve::COMMAND,
    groups::COMMAND,
    price::COMMAND,
    tries::COMMAND,
    text::COMMAND,
    bytes::COMMAND,
    positions::COMMAND,
    show::COMMAND,
    examine::COMMAND,
    stamp::COMMAND,
];

fn main() -> ExitCode {
    let words: Vec<OsString> = std::env::args_os().skip(1).collect();
    ExitCode::from(run(&words))
}

/// Carries out the command of these words: the exit status.
fn run(words: &[OsString]) -> u8 {
    let Some((name, words)) = words.split_first() else {
        return end(Err(no_command(None)));
    };
    if ["--help", "-h", "help"].iter().any(|word| name == word) {
        return end(help_of(words));
    }
    if ["--version", "-V"].iter().any(|word| name == word) {
        return end(match words {
            [] => Ok(stamp::version().into_bytes()),
            _ => Err(Failure::Failed("--version is given nothing".to_owned())),
        });
    }
    let Some(command) = command_of(name) else {
        return end(Err(no_command(Some(name))));
    };
    if words.iter().any(|word| word == "--help" || word == "-h") {
        return end(Ok(command.help().into_bytes()));
    }
    match Given::read(command, words) {
        Err(failure) => end(Err(failure)),
        Ok(given) => match command.run {
            Run::Once(run) => end(run(&given)),
            Run::Each(each) => jobs::run_each(&given, each),
        },
    }
}

fn command_of(name: &OsStr) -> Option<&'static Command> {
    COMMANDS.iter().find(|command| name == command.name)
}

/// What is said of the command of a word, or of all.
fn help_of(words: &[OsString]) -> command::Outcome {
    match words {
        [] => Ok(command::help(COMMANDS).into_bytes()),
        [name] => match command_of(name) {
            Some(command) => Ok(command.help().into_bytes()),
            None => Err(no_command(Some(name))),
        },
        _ => Err(Failure::Failed("help is given one command".to_owned())),
    }
}

fn no_command(name: Option<&OsStr>) -> Failure {
    let names: Vec<&str> = COMMANDS.iter().map(|command| command.name).collect();
    let names = names.join(", ");
    let what = match name {
        Some(name) => {
            let name = name.to_string_lossy();
            format!("`{name}` is no command; one of these is: {names}")
        }
        None => format!("the command is one of: {names}"),
    };
    Failure::Failed(format!("{what}; `parallel-moves --help` says more"))
}

/// Prints what came out, and says what is wrong: the exit status.
fn end(outcome: command::Outcome) -> u8 {
    let (result, said) = command::parted(outcome);
    let written = print(&result);
    let said = said.or(written.err());
    said.map_or(0, |failure| {
        say(&failure.what());
        failure.status()
    })
}

/// Writes to standard output.
fn print(result: &[u8]) -> Result<(), Failure> {
    let mut output = io::stdout().lock();
    let written = output.write_all(result).and_then(|()| output.flush());
    written.map_err(|error| Failure::Failed(format!("the result was not written: {error}")))
}

/// Says what is wrong, in one line. What it cites may have any characters: those that a terminal
/// would not show but do are escaped.
fn say(what: &str) {
    let mut line = String::new();
    for character in what.chars() {
        match character {
            '\'' | '"' | '\\' => line.push(character),
            _ => line.extend(character.escape_debug()),
        }
    }
    // Nobody is left to be told if this fails.
    let _ = writeln!(io::stderr(), "parallel-moves: {line}");
}
