//! The options of a run.

use std::path::PathBuf;
use std::thread;

use judge::answer;

use crate::compare::{Spoiled, Way};

/// One job of so many is also tried with too little room.
const LITTLE_ROOM: usize = 61;
pub struct Options {
    pub threads: usize,
    pub settings: Vec<u32>,
    pub planned: bool,
    pub rewritten: bool,
    pub priced: bool,
    pub tried: bool,
    pub difference: Option<PathBuf>,
    /// Of which job, counted from 0, something is spoiled.
    pub spoiled: Option<(Spoiled, usize)>,
}

impl Options {
    pub fn read(words: &[&str]) -> Result<Options, String> {
        let mut options = Options {
            threads: thread::available_parallelism().map_or(1, |n| n.get()),
            settings: answer::SETTINGS.to_vec(),
            planned: false,
            rewritten: false,
            priced: false,
            tried: false,
            difference: None,
            spoiled: None,
        };
        let mut rest = words;
        loop {
            rest = match *rest {
                [] => return Ok(options),
                ["--threads", count, ref rest @ ..] => {
                    options.threads = positive(count)?;
                    rest
                }
                ["--setting", word, ref rest @ ..] => {
                    options
                        .settings
                        .retain(|setting| setting.to_string() == word);
                    if options.settings.is_empty() {
                        return Err(format!("{word} is no setting"));
                    }
                    rest
                }
                ["--planned", ref rest @ ..] => {
                    options.planned = true;
                    rest
                }
                ["--priced", ref rest @ ..] => {
                    options.priced = true;
                    rest
                }
                ["--tried", ref rest @ ..] => {
                    options.tried = true;
                    options.settings.truncate(1);
                    rest
                }
                ["--difference", file, ref rest @ ..] => {
                    options.difference = Some(file.into());
                    rest
                }
                ["--spoil", what, number, ref rest @ ..] => {
                    let what = match what {
                        "text" => Spoiled::Text,
                        "words" => Spoiled::Words,
                        _ => return Err(format!("--spoil text or words, not {what}")),
                    };
                    options.spoiled = Some((what, positive(number)? - 1));
                    rest
                }
                [word, ..] => return Err(format!("no option {word}")),
            };
        }
    }

    /// How the job is compared that is `number` in all.
    pub fn way(&self, number: usize) -> Way {
        Way {
            with_little_room: number.is_multiple_of(LITTLE_ROOM),
            spoiled: self
                .spoiled
                .and_then(|(what, at)| (at == number).then_some(what)),
            planned: self.planned,
            rewritten: self.rewritten,
            priced: self.priced.then_some(number as u64),
            tried: self.tried.then_some(number as u64),
        }
    }
}

fn positive(word: &str) -> Result<usize, String> {
    match word.parse() {
        Ok(number) if number > 0 => Ok(number),
        _ => Err(format!("{word} is not a number from 1 on")),
    }
}
