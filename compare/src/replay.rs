//! A fixed choice of jobs with the judges' answers at both settings, small enough to
//! be kept and run again by every gate.

use std::collections::{BTreeMap, BTreeSet};
use std::fmt::Write as _;
use std::io::{self, Write};
use std::path::{Path, PathBuf};
use std::{fs, iter};

use crate::answer::{self, Judge, SETTINGS};
use crate::encode;
use crate::generate::calls::NO_SETTINGS;
use crate::generate::{Generator, MODES, limits};
use crate::random::Random;

/// A record's job and text are shorter than these.
const MOST_JOB: usize = 16_000;
const MOST_TEXT: usize = 60_000;

/// The numbers that a job can be refused by, and at last the one for a setting.
const NUMBERS: [u32; 18] = [
    1, 2, 3, 4, 5, 6, 7, 8, 9, 10, 11, 12, 13, 14, 15, 17, 21, 22,
];
const NO_SUCH_SETTING: u32 = 22;

/// The modes of mostly accepted jobs: how many to take, how many lines the text
/// has at least, and how long job and text together may be.
const ACCEPTED: [(&str, usize, usize, usize); 6] = [
    ("small", 60, 1, 1000),
    ("big", 7, 110, 7000),
    ("shared", 35, 1, 2000),
    ("memory", 40, 1, 1500),
    ("remat", 42, 1, 1500),
    ("patches", 8, 1, 4000),
];

/// Of mode `evictions`: how many jobs to take at both settings whose answers differ,
/// and how many of them with another outcome; how long job and text together may
/// be; out of how many.
const BOTH_SETTINGS: usize = 40;
const OTHER_OUTCOME: usize = 8;
const MOST_BOTH: usize = 900;
const BOTH_TRIED: usize = 20_000;

/// Of mode `refused`: how many to take for each number, of what length, out of
/// how many.
const FOR_EACH_NUMBER: usize = 12;
const MOST_REFUSED_JOB: usize = 620;
const REFUSED_TRIED: usize = 40_000;

/// The same of mode `damaged`, for each outcome.
const FOR_EACH_OUTCOME: usize = 5;
const MOST_DAMAGED_JOB: usize = 400;
const DAMAGED_TRIED: usize = 4000;

/// How often a job of each kind is tried at each limit and past it.
const LIMIT_TRIED: usize = 12;
/// Of kinds with records shorter than this, several are taken.
const SHORT_LIMIT_RECORD: usize = 1000;
const SHORT_LIMIT_RECORDS: usize = 3;

/// A job and what the judge of a setting says of it.
pub struct Record {
    /// The mode of the generator, or `trials` or `settings`.
    pub mode: &'static str,
    pub kept_evictions: u32,
    pub job: Vec<u8>,
    pub text: String,
    /// How many of the job's bytes were read.
    place: usize,
}

impl Record {
    pub fn new(mode: &'static str, kept_evictions: u32, job: Vec<u8>) -> Record {
        let answer = answer::answer(Judge::of(kept_evictions), &job);
        Record {
            mode,
            kept_evictions,
            job,
            text: answer.text,
            place: answer.place,
        }
    }

    /// The number that the job is refused by; 0 if it is accepted.
    fn refusal(&self) -> u32 {
        self.text
            .lines()
            .next_back()
            .and_then(|line| line.strip_prefix("refused ")?.parse().ok())
            .unwrap_or(0)
    }

    fn patches(&self) -> usize {
        self.text
            .lines()
            .filter(|line| line.starts_with("patch "))
            .count()
    }

    fn bytes(&self) -> usize {
        self.job.len() + self.text.len()
    }

    fn fits(&self) -> bool {
        self.job.len() < MOST_JOB && self.text.len() < MOST_TEXT
    }

    pub fn write(&self, output: &mut impl Write) -> io::Result<()> {
        output.write_all(&self.kept_evictions.to_le_bytes())?;
        for part in [self.job.len(), self.text.len()] {
            let length = u32::try_from(part).map_err(io::Error::other)?;
            output.write_all(&length.to_le_bytes())?;
        }
        output.write_all(&self.job)?;
        output.write_all(self.text.as_bytes())
    }
}

/// The trials of a folder, by name, but for those whose arguments say no setting.
pub fn trials(folder: &Path) -> io::Result<Vec<Record>> {
    let mut files: Vec<PathBuf> = fs::read_dir(folder)?
        .map(|file| Ok(file?.path()))
        .collect::<io::Result<_>>()?;
    files.retain(|file| file.extension().is_some_and(|end| end == "job"));
    files.sort();
    let mut records = Vec::new();
    for file in files {
        let given = file.with_extension("given");
        let given = match given.exists() {
            true => Some(fs::read_to_string(given)?),
            false => None,
        };
        if let Some(kept_evictions) = encode::setting(given.as_deref()) {
            records.push(Record::new("trials", kept_evictions, fs::read(file)?));
        }
    }
    Ok(records)
}

/// Records whose text is not the answer's, each for one reason, made of the first trials that
/// serve: a program that holds answers against texts says of each that it differs. The text is a
/// line short, has a line more, another last byte, is that of the other setting, ends in a
/// refusal that is none, and in a number too low.
pub fn wrong(records: &[Record]) -> Result<Vec<Record>, String> {
    let first = |wanted: &dyn Fn(&&Record) -> bool| {
        let found = records.iter().find(wanted);
        found.ok_or("no trial to make a wrong record of")
    };
    let accepted = first(&|record| record.refusal() == 0 && record.text.lines().count() > 2)?;
    let other = first(&|record| {
        let judged = Record::new("wrong", 3 - record.kept_evictions, record.job.clone());
        record.refusal() == 0 && judged.text != record.text
    })?;
    // Not by 17 or 22, which no reader gives.
    let refused = first(&|record| (3..=15).contains(&record.refusal()))?;
    let lines: Vec<&str> = accepted.text.split_inclusive('\n').collect();
    let changed = accepted.text.trim_end_matches('\n');
    let texts = [
        (accepted, lines[..lines.len() - 1].concat()),
        (accepted, format!("{}{}", accepted.text, lines[1])),
        (accepted, format!("{}9\n", &changed[..changed.len() - 1])),
        (other, Record::new("wrong", 3 - other.kept_evictions, other.job.clone()).text),
        (accepted, format!("{}refused 5\n", accepted.text)),
        (refused, "refused 2\n".to_owned()),
    ];
    let wrong = texts.map(|(record, text)| Record {
        mode: "wrong",
        kept_evictions: record.kept_evictions,
        job: record.job.clone(),
        text,
        place: record.place,
    });
    Ok(wrong.into())
}

/// The records that a seed decides, after those of the trials.
pub fn records(seed: u64, trials: Vec<Record>) -> Result<Vec<Record>, String> {
    let mut records = trials;
    for (mode, wanted, lines, most) in ACCEPTED {
        let accepted = jobs(seed, mode)
            .filter(|record| record.refusal() == 0 && record.fits() && record.bytes() <= most)
            .filter(|record| record.text.lines().count() >= lines)
            .take(wanted);
        records.extend(accepted);
    }
    records.extend(at_both_settings(seed)?);
    records.extend(at_limits(seed));
    records.extend(refused(seed)?);
    records.extend(damaged(seed));
    records.extend(at_no_setting(seed));
    match records.iter().find(|record| !record.fits()) {
        Some(record) => Err(format!("a record of {} is too long", record.mode)),
        None => Ok(records),
    }
}

/// The jobs of a mode, without end, at one setting and the other in turn.
fn jobs(seed: u64, mode: &'static str) -> impl Iterator<Item = Record> {
    let known = MODES.iter().find(|(name, _, _)| *name == mode);
    let &(name, mode, _) = known.expect("the mode is one of the table");
    let mut generator = Generator::new(seed, mode);
    let settings = SETTINGS.into_iter().cycle();
    settings.map(move |kept_evictions| Record::new(name, kept_evictions, generator.job()))
}

/// Jobs whose answers at the two settings differ, at both; some of them in that one
/// is refused.
fn at_both_settings(seed: u64) -> Result<Vec<Record>, String> {
    let mut records = Vec::new();
    let (mut alike, mut other) = (0, 0);
    for one in jobs(seed, "evictions").take(BOTH_TRIED) {
        let [one, two] = SETTINGS.map(|setting| Record::new(one.mode, setting, one.job.clone()));
        if one.text == two.text || one.bytes() > MOST_BOTH {
            continue;
        }
        let (count, wanted) = match one.refusal() == two.refusal() {
            true => (&mut alike, BOTH_SETTINGS - OTHER_OUTCOME),
            false => (&mut other, OTHER_OUTCOME),
        };
        if *count < wanted {
            *count += 1;
            records.extend([one, two]);
        }
    }
    match records.len() == 2 * BOTH_SETTINGS {
        true => Ok(records),
        false => Err(format!("{alike} and {other} jobs at both settings")),
    }
}

/// Settings that are none, each with an accepted job, a damaged one and none.
fn at_no_setting(seed: u64) -> Vec<Record> {
    let short = |record: &Record| record.job.len() <= MOST_DAMAGED_JOB;
    let mut accepted = jobs(seed, "small").filter(|r| r.refusal() == 0 && short(r));
    let mut damaged = jobs(seed, "damaged").filter(|r| r.refusal() != 0 && short(r));
    let mut records = Vec::new();
    for setting in NO_SETTINGS {
        let jobs = iter::empty().chain(accepted.next()).chain(damaged.next());
        let jobs = jobs.map(|record| record.job).chain([Vec::new()]);
        records.extend(jobs.map(|job| Record::new("settings", setting, job)));
    }
    records
}

/// Jobs refused by each number, at as many places as there are: a job is taken
/// if none before it is alike in the number, the tenth of the job that was read
/// last, and how many patches were resolved before (none, one or more). What is
/// then missing is made up by the others.
fn refused(seed: u64) -> Result<Vec<Record>, String> {
    let mut places = BTreeSet::new();
    let mut by_number: BTreeMap<u32, (Vec<Record>, Vec<Record>)> = BTreeMap::new();
    for record in jobs(seed, "refused").take(REFUSED_TRIED) {
        let number = record.refusal();
        if number == 0 || record.job.len() > MOST_REFUSED_JOB {
            continue;
        }
        let tenth = 10 * record.place / (record.job.len() + 1);
        let (apart, others) = by_number.entry(number).or_default();
        if places.insert((number, tenth, record.patches().min(2))) {
            apart.push(record);
        } else if others.len() < FOR_EACH_NUMBER {
            others.push(record);
        }
    }
    let mut records = Vec::new();
    for number in NUMBERS {
        if number == NO_SUCH_SETTING {
            continue;
        }
        let (mut apart, others) = by_number.remove(&number).unwrap_or_default();
        apart.extend(others);
        apart.truncate(FOR_EACH_NUMBER);
        if apart.len() < FOR_EACH_NUMBER {
            return Err(format!("{} jobs refused by {number}", apart.len()));
        }
        records.append(&mut apart);
    }
    Ok(records)
}

/// Damaged jobs, some of each outcome.
fn damaged(seed: u64) -> Vec<Record> {
    let mut taken = BTreeMap::new();
    jobs(seed, "damaged")
        .take(DAMAGED_TRIED)
        .filter(|record| {
            let taken: &mut usize = taken.entry(record.refusal()).or_default();
            let take = *taken < FOR_EACH_OUTCOME && record.job.len() <= MOST_DAMAGED_JOB;
            *taken += usize::from(take);
            take
        })
        .collect()
}

/// Jobs of each kind at a limit and past it: some if they are short, else one,
/// at the limit an accepted one if there is.
fn at_limits(seed: u64) -> Vec<Record> {
    let mut random = Random::new(seed);
    let mut settings = SETTINGS.into_iter().cycle();
    let mut record = |job| {
        let setting = settings.next().expect("it has no end");
        Record::new("limits", setting, job)
    };
    let mut records = Vec::new();
    for kind in limits::KINDS {
        for past in 0..2 {
            let mut tried: Vec<Record> = (0..LIMIT_TRIED)
                .map(|_| record(limits::job_of(&mut random, kind, past)))
                .filter(Record::fits)
                .collect();
            let short = tried.iter().all(|r| r.bytes() <= SHORT_LIMIT_RECORD);
            if short {
                tried.truncate(SHORT_LIMIT_RECORDS);
            } else {
                tried.sort_by_key(|record| past == 0 && record.refusal() != 0);
                tried.truncate(1);
            }
            records.extend(tried);
        }
    }
    for past in 0..2 {
        records.push(record(limits::order_entries_in_few_bytes(past)));
    }
    records
}

/// How many records there are by mode and outcome.
pub fn table(records: &[Record]) -> String {
    let mut counts: BTreeMap<(&str, u32), usize> = BTreeMap::new();
    let mut modes: Vec<&str> = Vec::new();
    for record in records {
        *counts.entry((record.mode, record.refusal())).or_default() += 1;
        if !modes.contains(&record.mode) {
            modes.push(record.mode);
        }
    }
    let mut table = format!("{:10}{:>9}", "mode", "accepted");
    for number in NUMBERS {
        let _ = write!(table, "{number:>5}");
    }
    table.push_str("  all    bytes\n");
    modes.push("all");
    for mode in modes {
        let count = |number: u32| -> usize {
            let of_mode = |(name, refusal): &(&str, u32)| {
                (mode == "all" || *name == mode) && *refusal == number
            };
            counts
                .iter()
                .filter(|(key, _)| of_mode(key))
                .map(|(_, n)| n)
                .sum()
        };
        let _ = write!(table, "{mode:10}{:>9}", count(0));
        for number in NUMBERS {
            let _ = write!(table, "{:>5}", count(number));
        }
        let all = count(0) + NUMBERS.into_iter().map(count).sum::<usize>();
        let bytes: usize = records
            .iter()
            .filter(|record| mode == "all" || record.mode == mode)
            .map(|record| 12 + record.bytes())
            .sum();
        let _ = writeln!(table, "{all:>5}{bytes:>9}");
    }
    let patches: usize = records.iter().map(Record::patches).sum();
    let edits = records
        .iter()
        .flat_map(|record| record.text.lines())
        .filter(|line| line.starts_with(['M', 'R', 'S', 'L']))
        .count();
    let longest_job = records.iter().map(|r| r.job.len()).max().unwrap_or(0);
    let longest_text = records.iter().map(|r| r.text.len()).max().unwrap_or(0);
    let with_two = records.iter().filter(|r| r.kept_evictions == 2).count();
    let _ = writeln!(
        table,
        "{with_two} with two kept evictions; {patches} patches, {edits} edits, \
         longest job {longest_job}, longest text {longest_text}"
    );
    table
}
