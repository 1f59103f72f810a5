//! Jobs as equations of the rules: for each, that `job` of crate `job_rules`, the
//! definitions themselves, gives of its bytes what the judge answers. Each is proved
//! by computing it (`refl`), as the trials of that crate are.

mod state;
mod wrong;

use std::fmt;
use std::fs;
use std::io;
use std::path::Path;

use crate::answer::{self, Judge};
use crate::generate::{Generator, MODES};
use crate::number::Reader;
use crate::tally::Tally;
use crate::target::Target;

/// How many jobs are drawn for one that is not too long.
const MOST_DRAWN: usize = 10_000;

/// Which equations to make.
pub struct Asked {
    pub seed: u64,
    pub count: usize,
    pub setting: u32,
    /// The longest job that is taken, in bytes.
    pub most_bytes: usize,
    /// How many stand in a crate.
    pub batch: usize,
    /// Whether each answer is made wrong.
    pub wrong: bool,
}

/// An edit, its numbers as they are printed.
#[derive(Clone, Debug, PartialEq, Eq)]
enum Edit {
    Move(String, String, u64),
    Rematerialize(String, u64),
    EmergencySpill(u64, u64),
    EmergencyReload(u64, u64),
}

/// A patch that was resolved.
#[derive(Clone, Debug, PartialEq, Eq)]
struct Done {
    edits: Vec<Edit>,
    made: u64,
    position: u64,
}

/// What is answered to a job: `Answers` of the rules.
#[derive(Clone, Debug, PartialEq, Eq)]
struct Answers {
    done: Vec<Done>,
    refusal: Option<u64>,
}

/// What the jobs come to.
#[derive(Default)]
pub struct Summary {
    tally: Tally,
    /// How many jobs have what, beside the tally.
    with: [u64; WITH.len()],
    /// How many equations stand in each crate.
    batches: Vec<usize>,
}

/// What jobs are counted by.
const WITH: [&str; 8] = [
    "a register of several units",
    "a memory register",
    "several patches answered",
    "a rebuild",
    "a register evicted",
    "an emergency slot made",
    "a refusal behind an answered patch",
    "another answer at the other setting",
];

/// Writes the equations into crates `equations_0`, `equations_1` .. of the folder, and the
/// jobs beside them as `N.job`. The modes come in turn, each with its own jobs of the seed.
pub fn write(asked: &Asked, folder: &Path) -> io::Result<Summary> {
    let mut generators: Vec<Generator> = MODES
        .iter()
        .filter(|(name, _, _)| *name != "mixed")
        .map(|&(_, mode, _)| Generator::new(asked.seed, mode))
        .collect();
    let modes = generators.len();
    let mut summary = Summary::default();
    let mut module = String::new();
    for index in 0..asked.count {
        let job = short_job(&mut generators[index % modes], asked.most_bytes)?;
        fs::write(folder.join(format!("{index}.job")), &job)?;
        let text = answer::answer(Judge::of(asked.setting), &job);
        let mut answers = Answers::of(&text).map_err(io::Error::other)?;
        let other = answer::text(3 - asked.setting, &job);
        summary.add(&job, &text.text, &answers, other != text.text);
        if asked.wrong {
            wrong::spoil(&mut answers, index / modes);
        }
        if index % asked.batch == 0 {
            summary.batches.push(0);
            module = state::head();
        }
        module.push_str(&state::equation(index, asked.setting, &job, &answers));
        let batch = summary.batches.len() - 1;
        summary.batches[batch] += 1;
        if summary.batches[batch] == asked.batch || index + 1 == asked.count {
            state::write_crate(&folder.join(format!("equations_{batch}")), &module)?;
        }
    }
    Ok(summary)
}

/// The next job that is not too long, of many.
fn short_job(generator: &mut Generator, most_bytes: usize) -> io::Result<Vec<u8>> {
    let mut jobs = std::iter::repeat_with(|| generator.job()).take(MOST_DRAWN);
    let short = jobs.find(|job| job.len() <= most_bytes);
    short.ok_or_else(|| io::Error::other("a mode has no jobs of so few bytes"))
}

impl Answers {
    /// What a judge's text says, with the positions that it met.
    fn of(answer: &answer::Answer) -> Result<Answers, String> {
        let mut answers = Answers {
            done: Vec::new(),
            refusal: None,
        };
        let mut positions = answer.positions.iter();
        for line in answer.text.lines() {
            let words: Vec<&str> = line.split(' ').collect();
            match words[..] {
                ["patch", _, "edits", _, "made", made] => answers.done.push(Done {
                    edits: Vec::new(),
                    made: number(made)?,
                    position: *positions.next().ok_or("no position")? as u64,
                }),
                ["refused", refusal] => answers.refusal = Some(number(refusal)?),
                _ => {
                    let done = answers.done.last_mut().ok_or_else(|| line.to_owned())?;
                    done.edits.push(edit(&words)?);
                }
            }
        }
        Ok(answers)
    }
}

/// An edit of its line's words. A panic of the original is none.
fn edit(words: &[&str]) -> Result<Edit, String> {
    Ok(match *words {
        ["M", to, from, value] => Edit::Move(to.to_owned(), from.to_owned(), number(value)?),
        ["R", to, value] => Edit::Rematerialize(to.to_owned(), number(value)?),
        ["S", slot, reg] => Edit::EmergencySpill(number(&slot[1..])?, number(&reg[1..])?),
        ["L", reg, slot] => Edit::EmergencyReload(number(&reg[1..])?, number(&slot[1..])?),
        _ => return Err(format!("no edit: {}", words.join(" "))),
    })
}

fn number(word: &str) -> Result<u64, String> {
    word.parse().map_err(|_| format!("no number: {word}"))
}

impl Summary {
    fn add(&mut self, job: &[u8], text: &str, answers: &Answers, differs: bool) {
        self.tally.add(text);
        let target = Target::read(&mut Reader::new(job)).ok();
        let registers = target.map_or(Vec::new(), |target| target.registers);
        let edits = || answers.done.iter().flat_map(|done| &done.edits);
        let has = [
            registers.iter().any(|register| register.units.len() > 1),
            registers.iter().any(|register| register.memory),
            answers.done.len() > 1,
            edits().any(|edit| matches!(edit, Edit::Rematerialize(..))),
            edits().any(|edit| matches!(edit, Edit::EmergencySpill(..))),
            answers.done.iter().any(|done| done.made > 0),
            answers.refusal.is_some() && !answers.done.is_empty(),
            differs,
        ];
        for (count, has) in self.with.iter_mut().zip(has) {
            *count += u64::from(has);
        }
    }
}

impl fmt::Display for Summary {
    fn fmt(&self, f: &mut fmt::Formatter<'_>) -> fmt::Result {
        write!(f, "{}", self.tally)?;
        for (what, count) in WITH.iter().zip(self.with) {
            writeln!(f, "jobs with {what}: {count}")?;
        }
        Ok(())
    }
}
