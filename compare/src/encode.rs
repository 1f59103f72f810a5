//! Jobs written for people: numbers in base ten, and files of trial patches.
//!
//! A job is written as words apart by white space:
//! * `12` is a number, in its shortest form;
//! * `0x8f` is that very byte, for jobs that are damaged on purpose;
//! * `( 0 1 3 0 )*128` is what stands between the brackets, 128 times;
//! * `@2+5` is between brackets 5, then 7, 9 and so on: 2 more each time;
//! * `$name` is what `name` was defined as (in a file of trials);
//! * `#` and the rest of its line are a comment.
//!
//! A file of trials has, apart from comments and empty lines:
//! * `define NAME WORD..` up to the line's end;
//! * `trial NAME`, then the job's words over any number of lines, then, if the
//!   program is given arguments, a line `given` with them (`""` is an empty one),
//!   then, if the positions matter, a line `met` with that of each patch, then a
//!   line `prints`, then the lines printed, then a line `end`. Of a long answer a
//!   line `..` stands for all edits of a patch, which are then the judge's.

use std::collections::BTreeMap;
use std::fmt;
use std::str::Lines;

use crate::answer;
use crate::number;

/// A mistake in what was written.
pub type Mistake = String;

/// What names stand for.
type Definitions = BTreeMap<String, Vec<u8>>;

/// The job that a text writes down.
pub fn job(text: &str) -> Result<Vec<u8>, Mistake> {
    words(text, &Definitions::new())
}

/// A trial patch and what is printed for it.
pub struct Trial {
    pub name: String,
    pub job: Vec<u8>,
    /// The arguments, a line each.
    pub given: Option<String>,
    /// The position of each patch, a line each.
    pub met: Option<String>,
    pub printed: String,
}

/// The trials of a file.
pub fn trials(text: &str) -> Result<Vec<Trial>, Mistake> {
    let mut definitions = Definitions::new();
    let mut trials = Vec::new();
    let mut lines = text.lines();
    while let Some(line) = lines.next() {
        let line = without_comment(line).trim();
        let (word, rest) = line.split_once(' ').unwrap_or((line, ""));
        match word {
            "" => {}
            "define" => {
                let (name, rest) = rest.trim().split_once(' ').unwrap_or((rest, ""));
                let bytes = words(rest, &definitions)?;
                definitions.insert(name.to_owned(), bytes);
            }
            "trial" => {
                let written = until(&mut lines, "prints")?;
                let printed = until(&mut lines, "end")?;
                let (written, met) = split(&written, "\nmet ");
                let (written, given) = split(written, "\ngiven ");
                let name = rest.trim().to_owned();
                let job = words(written, &definitions)?;
                let given = given.map(|given| lines_of(given.split_whitespace().map(argument)));
                let printed = filled(&name, setting(given.as_deref()), &job, &printed)?;
                trials.push(Trial {
                    name,
                    job,
                    given,
                    met: met.map(|met| lines_of(met.split_whitespace())),
                    printed,
                });
            }
            _ => return Err(format!("neither `define` nor `trial`: {line}")),
        }
    }
    Ok(trials)
}

/// What stands before a word, and after it if it is there.
fn split<'a>(text: &'a str, at: &str) -> (&'a str, Option<&'a str>) {
    match text.split_once(at) {
        Some((before, after)) => (before, Some(after)),
        None => (text, None),
    }
}

fn argument(word: &str) -> &str {
    if word == "\"\"" { "" } else { word }
}

/// The setting that the lines of a program's arguments come to: 1 without one, none
/// if they are not `1` or `2` alone.
pub fn setting(given: Option<&str>) -> Option<u32> {
    match given {
        None | Some("1\n") => Some(1),
        Some("2\n") => Some(2),
        Some(_) => None,
    }
}

/// Words, a line each.
pub fn lines_of(words: impl IntoIterator<Item = impl fmt::Display>) -> String {
    words.into_iter().map(|word| format!("{word}\n")).collect()
}

/// The lines before the one that is `last`.
fn until(lines: &mut Lines, last: &str) -> Result<String, Mistake> {
    let mut text = String::new();
    for line in lines {
        if line.trim() == last {
            return Ok(text);
        }
        text.push_str(line);
        text.push('\n');
    }
    Err(format!("no line `{last}`"))
}

fn without_comment(line: &str) -> &str {
    line.split('#').next().unwrap_or("")
}

/// What is printed for a trial, with the judge's edits where `..` stands.
fn filled(name: &str, setting: Option<u32>, job: &[u8], written: &str) -> Result<String, Mistake> {
    if !written.lines().any(|line| line == "..") {
        return Ok(written.to_owned());
    }
    let judged = answer::text(setting.unwrap_or(0), job);
    let is_edit = |line: &&str| line.starts_with(['M', 'R', 'S', 'L']);
    let mut rest = judged.lines().peekable();
    for line in written.lines() {
        if line == ".." {
            while rest.next_if(is_edit).is_some() {}
        } else if rest.next() != Some(line) {
            return Err(format!("{name}: the judge does not print {line}"));
        }
    }
    match rest.next() {
        None => Ok(judged),
        Some(line) => Err(format!("{name}: the judge also prints {line}")),
    }
}

fn words(text: &str, definitions: &Definitions) -> Result<Vec<u8>, Mistake> {
    let mut job = Vec::new();
    let mut opened: Option<Vec<&str>> = None;
    for word in text
        .lines()
        .flat_map(|l| without_comment(l).split_whitespace())
    {
        let unknown = || format!("not a word of a job: {word}");
        if word == "(" && opened.is_none() {
            opened = Some(Vec::new());
        } else if let Some(times) = word.strip_prefix(")*") {
            let repeated = opened.take().ok_or_else(unknown)?;
            let times: u32 = times.parse().map_err(|_| unknown())?;
            for time in 0..times {
                for &word in &repeated {
                    put_word(&mut job, word, definitions, Some(time))?;
                }
            }
        } else if let Some(repeated) = &mut opened {
            repeated.push(word);
        } else {
            put_word(&mut job, word, definitions, None)?;
        }
    }
    match opened {
        Some(_) => Err("a bracket is not closed".to_owned()),
        None => Ok(job),
    }
}

/// Puts a word, between brackets the `time`-th time, counted from 0.
fn put_word(
    job: &mut Vec<u8>,
    word: &str,
    definitions: &Definitions,
    time: Option<u32>,
) -> Result<(), Mistake> {
    let unknown = || format!("not a word of a job: {word}");
    let number = |word: &str| word.parse::<u32>().map_err(|_| unknown());
    if let Some(name) = word.strip_prefix('$') {
        job.extend(definitions.get(name).ok_or_else(unknown)?);
    } else if let Some(byte) = word.strip_prefix("0x") {
        job.push(u8::from_str_radix(byte, 16).map_err(|_| unknown())?);
    } else if let Some(rising) = word.strip_prefix('@') {
        let (step, first) = rising.split_once('+').ok_or_else(unknown)?;
        let time = time.ok_or_else(unknown)?;
        number::put(job, number(first)? + time * number(step)?);
    } else {
        number::put(job, number(word)?);
    }
    Ok(())
}
