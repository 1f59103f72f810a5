//! What a command is, what comes out of it, and how it is explained.

use parallel_moves::{Refusal, Resolver};

use crate::given::{self, Given, Opt};
use crate::jobs::Kind;

/// A command: its name, what it is given, what it does, and how.
pub struct Command {
    pub name: &'static str,
    /// The words behind its options.
    pub words: &'static str,
    /// Those that are its own; a command for each job has some besides.
    pub options: &'static [Opt],
    pub about: &'static [&'static str],
    pub run: Run,
}

/// How a command is carried out.
#[derive(Clone, Copy)]
pub enum Run {
    /// Once.
    Once(fn(&Given) -> Outcome),
    /// Once for each job that is given.
    Each(Each),
}

/// What is done with each job. Several are done at once, each by a resolver that no other
/// uses, and what comes out is printed in the order in which they are given.
#[derive(Clone, Copy)]
pub struct Each {
    /// What is read.
    pub kind: Kind,
    /// How the files end that are written with `--to`.
    pub writes: &'static str,
    pub run: fn(&Given, &mut Resolver, &[u8]) -> Outcome,
}

/// What is printed, or why not.
pub type Outcome = Result<Vec<u8>, Failure>;

/// Why there is no result, or only a part of one.
pub enum Failure {
    /// What was read is refused: what is printed all the same, and why.
    Refused(Vec<u8>, String),
    /// Something was not read or not written, or the words are wrong.
    Failed(String),
    /// A result is not confirmed: what is run is broken.
    Broken(String),
}

impl Failure {
    pub fn what(&self) -> String {
        let (Failure::Refused(_, what) | Failure::Failed(what) | Failure::Broken(what)) = self;
        what.clone()
    }

    /// The exit status.
    pub fn status(&self) -> u8 {
        match self {
            Failure::Refused(..) => 1,
            Failure::Failed(_) | Failure::Broken(_) => 2,
        }
    }
}

impl From<Refusal> for Failure {
    fn from(refusal: Refusal) -> Self {
        refused(refusal)
    }
}

/// A refusal with no result.
pub fn refused(why: impl ToString) -> Failure {
    Failure::Refused(Vec::new(), why.to_string())
}

/// Why a job is refused, with where if that can be told.
pub fn located(resolver: &mut Resolver, kept: u32, job: &[u8], refusal: Refusal) -> String {
    let why = match resolver.locate(kept, job, refusal) {
        Some(location) => format!("{location}: {refusal}"),
        None => refusal.to_string(),
    };
    why + if_text(job)
}

/// What the lines of a job's text begin with.
const LINES: &[&str] = &[
    "target",
    "units",
    "bank",
    "register",
    "class",
    "slots",
    "emergency-slots",
    "value",
    "patch",
    "move",
    "rebuild",
];

/// What is added where a refused job looks like a text.
pub fn if_text(job: &[u8]) -> &'static str {
    let text = std::str::from_utf8(job).unwrap_or("");
    let mut lines = text.lines().filter_map(|line| {
        let words = line.split('#').next().unwrap_or("");
        words.split_whitespace().next()
    });
    match lines.next() {
        Some(word) if LINES.contains(&word) => {
            "; it looks like the text of a job: `parallel-moves bytes` makes the job of it"
        }
        _ => "",
    }
}

/// What is added where a refused text looks like a job: it has bytes that no text has.
pub fn if_job(text: &[u8]) -> &'static str {
    match text.iter().any(|byte| matches!(byte, 0..=8 | 14..=31)) {
        true => "; it looks like the bytes of a job: `parallel-moves text` prints their text",
        false => "",
    }
}

/// What is printed, and what is said.
pub fn parted(outcome: Outcome) -> (Vec<u8>, Option<Failure>) {
    match outcome {
        Ok(result) => (result, None),
        Err(Failure::Refused(result, what)) => (result, Some(Failure::Refused(Vec::new(), what))),
        Err(failure) => (Vec::new(), Some(failure)),
    }
}

const ABOUT: &str = "\
parallel-moves help COMMAND
    Prints what stands here of that command.

parallel-moves --version
    Prints the version, and in a second line what `stamp` prints.

JOB and TEXT are files. A folder stands for all files in it whose names end as is said;
for `-`, or where nothing is named, standard input is read. Of several, the results stand
one after the other in the order given. The result goes to standard output, and what is
wrong to standard error: of a refused job the byte, counted from 0, and the part, if they
can be told. The exit status is 0; 1 if something that was read is refused; 2 if something
was not read, a result not written or, with --check, not confirmed, or the command is none.
docs/JOB.md has the format of a job, of its text and of its answer, and each refusal with its
cure.
";

/// What all commands do.
pub fn help(commands: &[Command]) -> String {
    let commands: String = commands
        .iter()
        .map(|command| command.help() + "\n")
        .collect();
    format!("{commands}{ABOUT}")
}

impl Command {
    /// The options, those of all commands for each job included.
    pub fn all_options(&self) -> impl Iterator<Item = &Opt> {
        let of_each: &[Opt] = match self.run {
            Run::Once(_) => &[],
            Run::Each(_) => given::OF_EACH,
        };
        self.options.iter().chain(of_each)
    }

    /// What it does.
    pub fn help(&self) -> String {
        let about: String = self
            .about
            .iter()
            .map(|line| format!("    {line}\n"))
            .collect();
        let files = match self.run {
            Run::Once(_) => String::new(),
            Run::Each(Each { kind, writes, .. }) => {
                let reads = kind.ending();
                format!("    Of a folder *.{reads} are read; --to makes *.{writes}.\n")
            }
        };
        let options: String = self.all_options().map(Opt::help).collect();
        let usage = format!("{} {}", self.name, self.words);
        format!(
            "parallel-moves {}\n{about}{files}{options}",
            usage.trim_end()
        )
    }
}
