//! `parallel-moves examine`.

use parallel_moves::{
    JobBuilder, Refusal, Resolver, examine, examine_in, first_fault, patch_count,
};

use crate::command::{Command, Failure, Outcome, Run, located};
use crate::given::{Given, Opt};
use crate::jobs::{Kind, Source};
use crate::lists::{List, Lists};
use crate::say;

const LIMIT: Opt = Opt {
    name: "--limit",
    value: "N",
    needed: false,
    about: "a frame's limit of slots, 0 to 2048, in place of the job's L",
};

/// The most slots of a frame.
const MOST_SLOTS: u32 = 2048;
/// The most patches of a job.
const MOST_PATCHES: u32 = 1024;

pub const COMMAND: Command = Command {
    name: "examine",
    words: "[--limit N] JOB < ANSWER",
    options: &[LIMIT],
    about: &[
        "Reads lists of edits as `resolve` prints them, from standard input: a line that",
        "begins with `patch` begins that patch, or the next if no number follows. Prints",
        "`patch K yes` if the list does what the job's patch asks from every start, `no` if",
        "not, `24` if a line is no edit or names what there is not, another number if the",
        "job's patch is refused, `twice` if there are two lists of it, and `missing` if there",
        "is none; `refused N` if the answer ends so. Standard error says of all but a `yes`",
        "what it is: of a `no` which edit cannot be done, or which place is wrong in the end.",
        "The exit status is 0 only if every patch of the job has a `yes`; else it is 1.",
    ],
    run: Run::Once(run),
};

fn run(given: &Given) -> Outcome {
    let [job_name] = &given.words[..] else {
        return Err(given.wrong("examine is given a job, and the answer on standard input"));
    };
    if job_name == "-" {
        return Err(given.wrong("the job is a file: standard input has the answer"));
    }
    let limit = limit(given)?;
    let job = Source::of(job_name).read(Kind::Job)?;
    let answer = String::from_utf8(Source::StandardInput.read(Kind::Answer)?)
        .map_err(|_| Failure::Failed("the answer is not UTF-8".to_owned()))?;
    Examining::new(&job, limit).all(&Lists::of(&answer))
}

/// The limit of a frame, if one is given.
fn limit(given: &Given) -> Result<Option<u32>, Failure> {
    let limit = given
        .has(&LIMIT)
        .then(|| given.number(&LIMIT, MOST_SLOTS + 1));
    match limit {
        Some(limit) if limit > MOST_SLOTS => {
            Err(given.wrong(format!("--limit is given a number from 0 to {MOST_SLOTS}")))
        }
        limit => Ok(limit),
    }
}

/// A job whose patches are held against lists.
struct Examining<'a> {
    job: &'a [u8],
    limit: Option<u32>,
    /// How many patches it has; 0 where that cannot be told.
    patches: u32,
    resolver: Resolver,
    printed: String,
    /// What is wrong.
    said: Vec<String>,
}

impl<'a> Examining<'a> {
    fn new(job: &'a [u8], limit: Option<u32>) -> Self {
        let patches = patch_count(job).ok();
        let patches = patches.filter(|patches| *patches <= MOST_PATCHES);
        Examining {
            job,
            limit,
            patches: patches.unwrap_or(0),
            resolver: Resolver::new(),
            printed: String::new(),
            said: Vec::new(),
        }
    }

    /// Examines all lists, and says what else is wrong.
    fn all(mut self, lists: &Lists) -> Outcome {
        for (&number, list) in &lists.of_patches {
            let verdict = self.verdict(number, list);
            self.printed += &format!("patch {number} {verdict}\n");
        }
        // The patch behind the last list is the one that the answer refuses; after 8 there
        // is none.
        let last = lists.of_patches.keys().next_back().copied();
        let refused = match lists.refusal {
            Some(_) => last.map_or(1, |last| last.saturating_add(1)),
            None => u32::MAX,
        };
        if let Some(refusal) = lists.refusal {
            let patch = match refused <= self.patches {
                true => format!("patch {refused}: "),
                false => String::new(),
            };
            self.said
                .push(format!("{patch}the answer ends in {refusal}"));
        } else if self.said.is_empty() {
            self.whole_job();
        }
        let is_missing =
            |number: &u32| *number != refused && !lists.of_patches.contains_key(number);
        let missing: Vec<u32> = (1..=self.patches).filter(is_missing).collect();
        for run in missing.chunk_by(|one, next| one + 1 == *next) {
            self.said.push(match run {
                [number] => format!("patch {number} is missing"),
                [first, .., last] => format!("patches {first} to {last} are missing"),
                [] => continue,
            });
        }
        for number in missing.iter().filter(|&&number| number < refused) {
            self.printed += &format!("patch {number} missing\n");
        }
        if let Some(refusal) = lists.refusal {
            self.printed += &format!("refused {}\n", refusal.number());
        }
        let printed = self.printed.into_bytes();
        let Some(last) = self.said.pop() else {
            return Ok(printed);
        };
        self.said.iter().for_each(|what| say(what));
        Err(Failure::Refused(printed, last))
    }

    /// What is printed of a list, and said of one that is no yes.
    fn verdict(&mut self, number: u32, list: &List) -> String {
        if let Some(line) = list.again {
            self.said.push(format!(
                "patch {number}: line {line} begins it a second time"
            ));
            return "twice".to_owned();
        }
        let (what, verdict) = match self.examine(number, &list.words) {
            Ok(true) => return "yes".to_owned(),
            Ok(false) => {
                let fault = first_fault(self.job, number - 1, &list.words);
                let what = match fault {
                    Some(fault) => list.located(fault),
                    None => "the list does not do what the patch asks".to_owned(),
                };
                (what, "no".to_owned())
            }
            Err(refusal) => (
                self.why(number, list, refusal),
                refusal.number().to_string(),
            ),
        };
        self.said.push(format!("patch {number}: {what}"));
        verdict
    }

    fn examine(&self, number: u32, words: &[u64]) -> Result<bool, Refusal> {
        let Some(patch) = number.checked_sub(1) else {
            return Err(Refusal::NamesNothing);
        };
        match self.limit {
            None => examine(self.job, patch, words),
            Some(limit) => examine_in(limit, self.job, patch, words),
        }
    }

    /// Why a list is refused.
    fn why(&mut self, number: u32, list: &List, refusal: Refusal) -> String {
        if refusal == Refusal::NoSuchEdit {
            let is_taken = |end: &usize| {
                let words = &list.words[..*end];
                self.examine(number, words) != Err(Refusal::NoSuchEdit)
            };
            // 24 is of single edits: of the first one that a beginning ends in which gets it.
            let ends: Vec<usize> = (1..=list.words.len()).collect();
            let line = list.line(ends.partition_point(is_taken));
            return line.map_or_else(String::new, |line| format!("line {line}: "))
                + &refusal.to_string();
        }
        let is_there = (1..=self.patches).contains(&number);
        if refusal == Refusal::NamesNothing && !is_there && self.patches > 0 {
            return match self.patches {
                1 => "the job has 1 patch".to_owned(),
                patches => format!("the job has {patches} patches"),
            };
        }
        located(&mut self.resolver, 1, self.job, refusal)
    }

    /// Says what the whole job is refused by: its patches, or what is behind them.
    fn whole_job(&mut self) {
        let why = match self.examine(self.patches.max(1), &[]) {
            Err(refusal) => Some(located(&mut self.resolver, 1, self.job, refusal)),
            Ok(_) => JobBuilder::from_bytes(self.job)
                .err()
                .map(|left_over| left_over.to_string()),
        };
        self.said.extend(why);
    }
}
