//! The options and words that a command is given.

use std::ffi::OsString;
use std::str::FromStr;

use parallel_moves::{Prices, Refusal};

use crate::command::{Command, Failure};

/// An option of a command.
pub struct Opt {
    /// With its two dashes.
    pub name: &'static str,
    /// What it is given; nothing for one that is only there or not.
    pub value: &'static str,
    /// Whether it must be there.
    pub needed: bool,
    pub about: &'static str,
}

impl Opt {
    pub fn help(&self) -> String {
        let usage = format!("{} {}", self.name, self.value);
        format!("      {usage:22}{}\n", self.about)
    }
}

pub const KEPT: Opt = Opt {
    name: "--kept",
    value: "K",
    needed: false,
    about: "how many evictions are kept, 1 or 2; 1 without it",
};

pub const PRICES: Opt = Opt {
    name: "--prices",
    value: "M,R,S,L",
    needed: true,
    about: "what each of these edits costs, in quarter cycles",
};

pub const JOBS: Opt = Opt {
    name: "--jobs",
    value: "N",
    needed: false,
    about: "how many are done at once; as many as there are cores without it",
};

pub const TO: Opt = Opt {
    name: "--to",
    value: "FOLDER",
    needed: false,
    about: "writes each result to a file of this folder",
};

/// The options of a command for each job.
pub const OF_EACH: &[Opt] = &[JOBS, TO];

/// What a command is given.
pub struct Given {
    command: &'static str,
    options: Vec<(&'static str, OsString)>,
    /// The words that are no options.
    pub words: Vec<OsString>,
}

impl Given {
    /// Takes the words apart.
    pub fn read(command: &Command, words: &[OsString]) -> Result<Given, Failure> {
        let mut given = Given {
            command: command.name,
            options: Vec::new(),
            words: Vec::new(),
        };
        let mut words = words.iter();
        while let Some(word) = words.next() {
            let text = word.to_str().unwrap_or("");
            if text == "--" {
                given.words.extend(words.by_ref().cloned());
            } else if text.starts_with("--") {
                let (name, value) = match text.split_once('=') {
                    Some((name, value)) => (name, Some(OsString::from(value))),
                    None => (text, None),
                };
                let option = command.all_options().find(|option| option.name == name);
                let option = option.ok_or_else(|| given.wrong(format!("{name} is no option")))?;
                let value = match (option.value, value) {
                    ("", Some(_)) => return Err(given.wrong(format!("{name} is given nothing"))),
                    ("", None) => OsString::new(),
                    (_, Some(value)) => value,
                    (wanted, None) => words
                        .next()
                        .cloned()
                        .ok_or_else(|| given.wrong(format!("{name} is given {wanted}")))?,
                };
                if given.has(option) {
                    return Err(given.wrong(format!("{name} is said twice")));
                }
                given.options.push((option.name, value));
            } else {
                given.words.push(word.clone());
            }
        }
        let mut needed = command.all_options().filter(|option| option.needed);
        if let Some(missing) = needed.find(|option| !given.has(option)) {
            return Err(given.wrong(format!("{} is missing", missing.name)));
        }
        if given.has(&PRICES) {
            given.prices()?;
        }
        Ok(given)
    }

    /// Words that are not as the command wants them.
    pub fn wrong(&self, what: impl ToString) -> Failure {
        let (what, command) = (what.to_string(), self.command);
        Failure::Failed(format!(
            "{what}; `parallel-moves {command} --help` says more"
        ))
    }

    pub fn value(&self, option: &Opt) -> Option<&OsString> {
        let mut options = self.options.iter();
        let said = options.find(|(name, _)| *name == option.name);
        said.map(|(_, value)| value)
    }

    pub fn has(&self, option: &Opt) -> bool {
        self.value(option).is_some()
    }

    /// The number that an option is given, or one outside its range.
    pub fn number<T: FromStr>(&self, option: &Opt, outside: T) -> T {
        match self.value(option) {
            Some(word) => number(word, outside),
            None => outside,
        }
    }

    /// The numbers that an option is given with commas between them.
    pub fn list<T: FromStr + Copy>(&self, option: &Opt, outside: T) -> Vec<T> {
        self.value(option)
            .map_or(Vec::new(), |word| list(word, outside))
    }

    /// Why a number that an option is given is refused as one outside its range: it is too
    /// large, or no number at all.
    pub fn outside(&self, option: &Opt, refusal: Refusal) -> String {
        let word = self.value(option).map(|word| word.to_string_lossy());
        let word = word.unwrap_or_default();
        let is_number = |part: &&str| !part.is_empty() && part.bytes().all(|b| b.is_ascii_digit());
        match word.split(',').find(|part| !is_number(part)) {
            Some(part) => format!(
                "refused {}: {} is given whole numbers in digits, and `{part}` is none",
                refusal.number(),
                option.name
            ),
            None => refusal.to_string(),
        }
    }

    /// How many evictions are kept; one that is neither 1 nor 2 is refused.
    pub fn kept(&self) -> u32 {
        match self.has(&KEPT) {
            true => self.number(&KEPT, 0),
            false => 1,
        }
    }

    /// The prices; one that is outside its range is refused.
    pub fn prices(&self) -> Result<Prices, Failure> {
        let list = self.list(&PRICES, u32::MAX);
        let Ok([moves, remats, spills, reloads]) = <[u32; 4]>::try_from(list) else {
            return Err(self.wrong("--prices is given four numbers with commas between them"));
        };
        Ok(Prices {
            moves,
            remats,
            spills,
            reloads,
        })
    }
}

/// A word as a number of a type that holds its range; one that is none, or is too large
/// for the type, counts as one outside its range.
fn number<T: FromStr>(word: &OsString, outside: T) -> T {
    let digits = word
        .to_str()
        .filter(|word| word.bytes().all(|b| b.is_ascii_digit()));
    digits.and_then(|word| word.parse().ok()).unwrap_or(outside)
}

/// The numbers of a word with commas between them.
fn list<T: FromStr + Copy>(word: &OsString, outside: T) -> Vec<T> {
    let word = word.to_string_lossy();
    let parts = word.split(',').map(OsString::from);
    parts.map(|part| number(&part, outside)).collect()
}
